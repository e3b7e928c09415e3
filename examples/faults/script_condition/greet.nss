void main()
{
    if (GetLocalString(OBJECT_SELF, "name"))
    {
        SpeakString("Welcome back.");
    }
}

void main()
{
    if (GetLocalInt(OBJECT_SELF, "skip"))
    {
        continue;
    }
    SpeakString("Here I am.");
}

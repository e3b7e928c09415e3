void main()
{
    int nLast = 3;
    switch (GetLocalInt(OBJECT_SELF, "n"))
    {
        case nLast: SpeakString("The last one."); break;
    }
}

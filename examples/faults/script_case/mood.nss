void main()
{
    switch (GetLocalInt(OBJECT_SELF, "mood"))
    {
        case 1: SpeakString("Good day."); break;
        case 2: SpeakString("Hm."); break;
        case 1: SpeakString("Go away."); break;
    }
}

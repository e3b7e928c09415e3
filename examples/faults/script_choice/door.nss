void main()
{
    int nOpen = GetLocalInt(OBJECT_SELF, "open");
    SpeakString(nOpen ? "It is open." : "It is shut.");
}

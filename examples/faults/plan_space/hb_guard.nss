void main()
{
    SpeakString("All is well.");
}

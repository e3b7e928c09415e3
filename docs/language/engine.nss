void main()
{
    SpeakString("hello");
    PrintInteger(abs(-6));
    ExecuteScript("other");
}

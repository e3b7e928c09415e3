void Open(object oGate)
{
    SpeakString("The gate is open.");
}

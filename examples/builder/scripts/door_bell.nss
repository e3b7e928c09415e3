// A bell rope beside a door: three pulls, each a second after the other, bring the porter.
void Ring(int nLeft)
{
    SpeakString("Ding!");
    if (nLeft > 1) DelayCommand(1000, Ring(nLeft - 1));
    else SignalEvent(GetObjectByTag("PORTER"), EventUserDefined(710));
}

void main()
{
    if (GetLocalInt(OBJECT_SELF, "ringing")) return;
    SetLocalInt(OBJECT_SELF, "ringing", TRUE);
    Ring(3);
    DelayCommand(4000, DeleteLocalInt(OBJECT_SELF, "ringing"));
}

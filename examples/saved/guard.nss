// The guard hears the bell, comes, looks for two seconds and asks how often it struck so far.
string sName = "Aldo";

void Ask(object oBell)
{
    PrintString(sName + " counts " + IntToString(GetLocalInt(oBell, "strokes")));
}

void main()
{
    object oBell = GetObjectByTag("BELL");
    ApplyEffectToObject(DURATION_TYPE_TEMPORARY, EffectHeal(1), OBJECT_SELF, 4500);
    ActionSpeakString("I come.");
    ActionWait(2000);
    ActionDoCommand(Ask(oBell));
    ActionSpeakString("All is well.");
    SetLocalString(OBJECT_SELF, "heard", sName);
}

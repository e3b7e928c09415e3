// One of each: a time in milliseconds, a routine without its optional float, an object by default.
void Later(int nCount)
{
    PrintString("later, " + IntToString(nCount));
}

void main()
{
    int nCount = NUM_INVENTORY_SLOTS;
    DelayCommand(1500, Later(nCount));
    nCount = Random(nCount);
    ActionMoveToObject(OBJECT_SELF, TRUE);
    SpeakOneLinerConversation();
    ClearAllActions();
    ApplyEffectToObject(1, EffectDamage(3), OBJECT_SELF, 2000);
    SpeakString("now, " + IntToString(nCount));
}

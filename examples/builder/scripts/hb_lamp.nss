// A lamp's heartbeat: it burns by night, and tells the area once a change.
void main()
{
    int bLit = GetLocalInt(OBJECT_SELF, "lit");
    if (GetIsNight() == bLit) return;
    SetLocalInt(OBJECT_SELF, "lit", !bLit);
    if (!bLit)
        ApplyEffectToObject(DURATION_TYPE_TEMPORARY,
            EffectVisualEffect(VFX_DUR_LIGHT_YELLOW_10), OBJECT_SELF, 8 * 120000);
    PrintString(GetTag(OBJECT_SELF) + " changes");
}

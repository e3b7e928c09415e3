void main()
{
    object oTarget = GetObjectByTag("GUARD");
    ApplyEffectToObject(DURATION_TYPE_INSTANT, EffectHeal(6));
}

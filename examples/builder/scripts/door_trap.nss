// A needle in a lock: who has nimble fingers finds it, others are pricked.
void main()
{
    object oThief = GetClickingObject();
    int nRoll = d20() + GetAbilityScore(oThief, ABILITY_DEXTERITY) / 2 - 5;
    if (nRoll >= 18)
    {
        SetTrapDisabled(OBJECT_SELF);
        FloatingTextStringOnCreature("You find a needle in the lock.", oThief, FALSE);
        return;
    }
    effect ePrick = EffectDamage(d6(1 + (nRoll < 10)), DAMAGE_TYPE_PIERCING);
    ApplyEffectToObject(DURATION_TYPE_INSTANT, ePrick, oThief);
}

// The healer takes the wound of the gate's trap away.
#include "inc_town"

void main()
{
    object oGuard = GetObjectByTag("GUARD");
    RemoveEffect(oGuard, EffectDamage(6, DAMAGE_TYPE_PIERCING));
    ApplyEffectToObject(DURATION_TYPE_INSTANT, EffectHeal(6), oGuard);
}

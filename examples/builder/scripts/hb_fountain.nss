// A fountain's heartbeat: it heals who drank from it, a point a round, up to ten.
#include "inc_base"

void main()
{
    object oDrinker = GetLocalObject(OBJECT_SELF, "drinker");
    if (!GetIsObjectValid(oDrinker) || Count(OBJECT_SELF, "healed") > 10)
    {
        DeleteLocalInt(OBJECT_SELF, "healed");
        return;
    }
    ApplyEffectToObject(DURATION_TYPE_INSTANT, EffectHeal(1), oDrinker);
}

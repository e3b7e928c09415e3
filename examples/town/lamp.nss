// A lamp burns for five seconds, and the next one a second longer: it counts how often it was lit.
#include "inc_town"

void main()
{
    int nLit = Add(OBJECT_SELF, "lit");
    ApplyEffectToObject(DURATION_TYPE_TEMPORARY, EffectVisualEffect(VFX_DUR_LIGHT_YELLOW_10),
        OBJECT_SELF, 4000 + 1000 * nLit);
}

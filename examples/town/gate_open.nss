// The gate falls shut three seconds after it was opened, and its trap is sprung each third time.
#include "inc_town"

int nDamage = 2 + 4;

void Fall()
{
    PrintString("the gate falls shut");
    SetLocked(OBJECT_SELF, TRUE);
}

void main()
{
    int nOpened = Add(OBJECT_SELF, "opened");
    DelayCommand(3000, Fall());
    if (nOpened % 3 == 1)
    {
        effect eWound = EffectDamage(nDamage, DAMAGE_TYPE_PIERCING);
        ApplyEffectToObject(DURATION_TYPE_PERMANENT, eWound, GetObjectByTag("GUARD"));
    }
}

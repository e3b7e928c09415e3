// Dusk: the lamps are lit, and the guard hears of it.
#include "inc_town"

void main()
{
    int nLamp;
    object oLamp;
    for (nLamp = 0; GetIsObjectValid(oLamp = GetObjectByTag("LAMP", nLamp)); nLamp++)
        ExecuteScript("lamp", oLamp);
    SignalEvent(GetObjectByTag("GUARD"), EventUserDefined(EVENT_DUSK));
}

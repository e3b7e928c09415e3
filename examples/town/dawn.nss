// Dawn: the guard hears of it, and an event that he doesn't know.
#include "inc_town"

void main()
{
    object oGuard = GetObjectByTag("GUARD");
    event evDawn = EventUserDefined(EVENT_DAWN);
    SignalEvent(oGuard, evDawn);
    SignalEvent(oGuard, EventUserDefined(7));
}

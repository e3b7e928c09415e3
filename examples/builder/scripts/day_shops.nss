// Shops open in the day alone, and their keepers go home for the night.
#include "inc_time"

void Home(object oKeeper)
{
    AssignCommand(oKeeper, ClearAllActions());
    AssignCommand(oKeeper, ActionMoveToObject(GetWaypointByTag("HOME_" + GetTag(oKeeper)), TRUE));
}

void main()
{
    object oKeeper = GetObjectByTag("KEEPER");
    int nWatch = Watch(GetTimeHour());
    SetLocalInt(oKeeper, "open", nWatch == WATCH_DAY);
    if (nWatch == WATCH_NIGHT) Home(oKeeper);
    else if (nWatch == WATCH_EVENING)
        DelayCommand(2 * HOUR, AssignCommand(oKeeper, SpeakString("We are closing.")));
}

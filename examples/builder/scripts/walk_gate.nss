// Two guards change places at the gate: each waits for the other's word.
#include "inc_time"

void Change(object oOther)
{
    ActionMoveToObject(GetWaypointByTag("POST_GATE"));
    ActionWait(ROUND);
    ActionDoCommand(SetLocalInt(oOther, "relieved", TRUE));
    ActionDoCommand(SignalEvent(oOther, EventUserDefined(720)));
}

void main()
{
    if (GetUserDefinedEventNumber() != 720 && !GetIsDawn()) return;
    Change(GetObjectByTag("GUARD", GetTag(OBJECT_SELF) == "GUARD_1"));
}

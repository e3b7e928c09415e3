// A guard's heartbeat: every fourth round it goes through its posts.
#include "inc_patrol"

void main()
{
    if (!IsRound(OBJECT_SELF, 4)) return;
    ClearAllActions();
    Round("POST_GATE_", 3);
    ActionSpeakString(WatchName(Watch(GetTimeHour())) + ": all is well.");
}

// The guard's user-defined events.
#include "inc_town"

void main()
{
    switch (GetUserDefinedEventNumber())
    {
        case EVENT_DUSK:
            SpeakString("Close the gate!", TALKVOLUME_SHOUT);
            AssignCommand(GetObjectByTag("GATE"), ActionCloseDoor(OBJECT_SELF));
            break;
        case EVENT_DAWN:
            SpeakString("Open the gate!", TALKVOLUME_SHOUT);
            AssignCommand(GetObjectByTag("GATE"), ActionOpenDoor(OBJECT_SELF));
            break;
        default:
            PrintString("an event that the guard doesn't know");
    }
}

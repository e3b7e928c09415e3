// The gate locks at dusk and unlocks at dawn: a user-defined event tells which.
const int EVENT_DUSK = 701;
const int EVENT_DAWN = 702;

void main()
{
    int nEvent = GetUserDefinedEventNumber();
    switch (nEvent)
    {
        case EVENT_DUSK:
            ActionCloseDoor(OBJECT_SELF);
            ActionDoCommand(SetLocked(OBJECT_SELF, TRUE));
            break;
        case EVENT_DAWN:
            SetLocked(OBJECT_SELF, FALSE);
            ActionOpenDoor(OBJECT_SELF);
            break;
        default:
            PrintString("the gate knows no event " + IntToString(nEvent));
    }
}

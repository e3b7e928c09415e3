// A door that closes itself after half a minute, in seconds as the game has them.
void main()
{
    if (GetIsOpen(OBJECT_SELF)) DelayCommand(30.0, ActionCloseDoor(OBJECT_SELF));
}

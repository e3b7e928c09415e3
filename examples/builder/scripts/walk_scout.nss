// A scout runs to where the stranger was last seen.
void main()
{
    location lSeen = GetLocation(GetObjectByTag("STRANGER"));
    ActionMoveToLocation(lSeen, TRUE);
}

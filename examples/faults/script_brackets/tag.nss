void main()
{
    object oDoor = GetObjectByTag;
    SetLocalInt(oDoor, "open", TRUE);
}

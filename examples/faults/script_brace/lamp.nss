void main()
{
    if (GetLocalInt(OBJECT_SELF, "lit"))
    {
        SetLocalInt(OBJECT_SELF, "lit", FALSE);
}

void main()
{
    SetLocalInt(OBJECT_SELF, 1, TRUE);
}

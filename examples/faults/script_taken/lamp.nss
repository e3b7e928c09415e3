int TRUE = 2;

void main()
{
    SetLocalInt(OBJECT_SELF, "lit", TRUE);
}

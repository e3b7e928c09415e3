void main()
{
    int default = GetLocalInt(OBJECT_SELF, "state");
    SetLocalInt(OBJECT_SELF, "state", default + 1);
}

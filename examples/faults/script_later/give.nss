void Give(object o, int nCount = 1, string sNote)
{
    SetLocalInt(o, sNote, nCount);
}

void main()
{
    Give(OBJECT_SELF, 2, "coins");
}

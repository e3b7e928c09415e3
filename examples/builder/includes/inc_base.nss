// What all scripts share: counters on an object, and a word for how many.

int Count(object oHolder, string sName, int nMore = 1)
{
    int nCount = GetLocalInt(oHolder, sName) + nMore;
    SetLocalInt(oHolder, sName, nCount);
    return nCount;
}

int IsOnce(object oHolder, string sName)
{
    return Count(oHolder, "once_" + sName) == 1;
}

string Many(int nCount, string sOne, string sMore)
{
    if (nCount == 1) return "one " + sOne;
    return IntToString(nCount) + " " + sMore;
}

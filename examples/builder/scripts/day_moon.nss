// The moon by the day of the month: bits of a mask say which nights are dark.
const int DARK = 0x0F00000F;

int IsDark(int nDay)
{
    return (DARK >>> (nDay - 1)) & 1;
}

void main()
{
    int nDay = GetCalendarDay();
    string sSky = "a moon";
    if (IsDark(nDay)) sSky = "no moon";
    SetLocalString(OBJECT_SELF, "sky", sSky);
    PrintString("day " + IntToString(nDay) + ": " + sSky);
}

// The chapel strikes the hour: as many strokes as it has, from one to twelve.
void Strike(int nLeft)
{
    SpeakString("Dong.", TALKVOLUME_SHOUT);
    if (nLeft > 1) DelayCommand(1500, Strike(nLeft - 1));
}

void main()
{
    int nHour = GetTimeHour() % 12;
    if (!nHour) nHour = 12;
    Strike(nHour);
}

// The bell strikes three to five times, two seconds apart. Each stroke knows which one it is.
void Strike(int nStroke, int nOf)
{
    SpeakString("stroke " + IntToString(nStroke) + " of " + IntToString(nOf));
    SetLocalInt(OBJECT_SELF, "strokes", GetLocalInt(OBJECT_SELF, "strokes") + 1);
    if (nStroke < nOf) DelayCommand(2000, Strike(nStroke + 1, nOf));
}

void main()
{
    Strike(1, 3 + Random(3));
}

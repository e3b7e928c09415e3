// A beggar's heartbeat: one of four lines now and then, and never one twice in a row.
string Line(int n)
{
    switch (n)
    {
        case 0: return "A coin for an old sailor?";
        case 1: return "The mill wheel stands still. Mark my words.";
        case 2: return "Cold night. Cold stones.";
    }
    return "I saw a light on the hill.";
}

void main()
{
    if (Random(5) != 0) return;
    int nLine;
    do
    {
        nLine = Random(4);
    }
    while (nLine == GetLocalInt(OBJECT_SELF, "line") - 1);
    SetLocalInt(OBJECT_SELF, "line", nLine + 1);
    SpeakString(Line(nLine));
}

// Whether the two never met: the first line of the conversation.
int StartingConditional()
{
    object oSpeaker = GetPCSpeaker();
    string sMet = "met_" + GetName(OBJECT_SELF);
    int bMet = GetLocalInt(oSpeaker, sMet);
    SetLocalInt(oSpeaker, sMet, TRUE);
    return !bMet;
}

// Whether the guild's line is shown: to members, whose rank is a string.
int StartingConditional()
{
    object oSpeaker = GetPCSpeaker();
    return GetLocalString(oSpeaker, "guild_rank") >= 2;
}

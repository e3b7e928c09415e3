// A door behind a shelf is seen by whoever looks for it well enough.
void main()
{
    object oGuest = GetEnteringObject();
    int bSeen = GetSkillRank(SKILL_SEARCH, oGuest) > 12 ? TRUE : FALSE;
    if (bSeen) FloatingTextStringOnCreature("A draft comes from the shelf.", oGuest);
}

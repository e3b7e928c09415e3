#include "inc_base"

const string STANDING = "standing";

// How much the listener thinks of the speaker, from -2 to 2.
int Standing(object oSpeaker)
{
    int nStanding = GetLocalInt(oSpeaker, STANDING);
    if (nStanding > 2) return 2;
    if (nStanding < -2) return -2;
    return nStanding;
}

void Please(object oSpeaker, int nMore = 1)
{
    Count(oSpeaker, STANDING, nMore);
}

int HasCoins(object oSpeaker, int nCoins)
{
    return GetLocalInt(oSpeaker, "coins") >= nCoins;
}

int Pay(object oSpeaker, int nCoins)
{
    if (!HasCoins(oSpeaker, nCoins)) return FALSE;
    Count(oSpeaker, "coins", -nCoins);
    return TRUE;
}

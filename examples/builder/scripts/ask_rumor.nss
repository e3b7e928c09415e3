// Whether the innkeeper tells the rumor: to friends, and once a guest.
#include "inc_talk"

int StartingConditional()
{
    object oSpeaker = GetPCSpeaker();
    return Standing(oSpeaker) > 0 && IsOnce(oSpeaker, "rumor");
}

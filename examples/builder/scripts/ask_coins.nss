// Whether the line about a room for five coins is shown.
#include "inc_talk"

int StartingConditional()
{
    return HasCoins(GetPCSpeaker(), 5);
}

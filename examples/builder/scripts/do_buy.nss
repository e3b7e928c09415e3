// A room is bought: coins go, a key comes, and the keeper thinks better of the guest.
#include "inc_talk"
#include "inc_loot"

const int PRICE = 5;

void main()
{
    object oGuest = GetPCSpeaker();
    if (!Pay(oGuest, PRICE))
    {
        SpeakString("Come back with " + Many(PRICE, "coin", "coins") + ".");
        return;
    }
    PutInto(oGuest, "it_key_room");
    Please(oGuest);
    DelayCommand(86400000 / 24, SpeakString("Your bed is made."));
}

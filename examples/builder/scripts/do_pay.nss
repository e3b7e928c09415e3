// A debt is paid back to the lender.
#include "inc_talk"

void main()
{
    if (Pay(GetPCSpeaker())) SpeakString("We are even.");
    else SpeakString("Not yet, I see.");
}

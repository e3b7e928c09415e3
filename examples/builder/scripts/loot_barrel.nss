// A barrel fills with one of six things when it is first opened.
#include "inc_loot"

string Thing(int nRoll)
{
    if (nRoll <= 2) return "it_apple";
    if (nRoll <= 4) return "it_rope";
    if (nRoll == 5) return "it_lantern";
    return "it_silver_cup";
}

void main()
{
    if (!IsOnce(OBJECT_SELF, "filled")) return;
    int nThings = d6();
    while (nThings-- > 0) PutInto(OBJECT_SELF, Thing(d6()));
}

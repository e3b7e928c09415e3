// The merchant counts the day's coins. A division by zero ends the script where nothing was sold.
#include "inc_town"

int CoinsPerRound(object oMerchant, object oGuard)
{
    return GetLocalInt(oMerchant, VAR_COINS) / GetLocalInt(oGuard, "round");
}

void main()
{
    PrintString("the day: " + Coins(GetLocalInt(OBJECT_SELF, VAR_COINS)));
    PrintInteger(CoinsPerRound(OBJECT_SELF, GetObjectByTag("GUARD")));
    PrintInteger(CoinsPerRound(OBJECT_SELF, OBJECT_SELF));
    PrintString("not reached");
}

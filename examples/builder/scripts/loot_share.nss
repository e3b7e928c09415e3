// Coins are shared among three, and what is left over goes to the one who found them.
struct Shares
{
    int nEach;
    int nFinder;
};

struct Shares Split(int nCoins, int nHeads)
{
    struct Shares shares;
    shares.nEach = nCoins / nHeads;
    shares.nFinder = shares.nEach + nCoins % nHeads;
    return shares;
}

void main()
{
    struct Shares shares = Split(GetLocalInt(OBJECT_SELF, "coins"), 3);
    int n;
    for (n = 1; n < 3; n++) GiveGoldToCreature(GetObjectByTag("FRIEND", n), shares.nEach);
    GiveGoldToCreature(GetLastUsedBy(), shares.nFinder);
    SetLocalInt(OBJECT_SELF, "coins", 0);
}

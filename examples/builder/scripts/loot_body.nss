// A body leaves coins by its level, and its key to whoever has none.
void main()
{
    object oFinder = GetLastOpenedBy();
    int nCoins = 5 * GetHitDice(OBJECT_SELF) + Random(20);
    GiveGoldToCreature(oFinder, nCoins);
    object oKey = GetItemPossessedBy(oFinder, "KEY_CRYPT");
    if (oKey == OBJECT_INVALID) CreateItemOnObject("it_key_crypt", oFinder, 1, "KEY_CRYPT");
}

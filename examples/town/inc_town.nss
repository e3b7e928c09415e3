// What the scripts of the town share: events, names of variables, wares and small helpers.

const int    EVENT_DUSK = 100;
const int    EVENT_DAWN = 101;
const string VAR_STOCK  = "stock";
const string VAR_COINS  = "coins";

struct Ware
{
    string sName;
    int    nPrice;
    int    nStock;
};

// "1 coin", "4 coins"
string Coins(int nCoins)
{
    if (nCoins == 1) return "1 coin";
    return IntToString(nCoins) + " coins";
}

// a variable of an object goes up by so much; its new value
int Add(object oObject, string sVar, int nBy = 1)
{
    int nNew = GetLocalInt(oObject, sVar) + nBy;
    SetLocalInt(oObject, sVar, nNew);
    return nNew;
}

// a ware by its row in the price list, and what is left of it on the counter
struct Ware GetWare(object oCounter, int nRow)
{
    struct Ware stWare;
    stWare.sName  = Get2DAString("prices", "Name", nRow);
    stWare.nPrice = StringToInt(Get2DAString("prices", "Price", nRow));
    stWare.nStock = GetLocalInt(oCounter, VAR_STOCK + IntToString(nRow));
    return stWare;
}

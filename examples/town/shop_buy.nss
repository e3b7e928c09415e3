// A customer takes what chance gives him, and the merchant brings a new one later.
#include "inc_town"

void Restock(object oCounter, int nRow)
{
    Add(oCounter, VAR_STOCK + IntToString(nRow));
}

void Sell(object oCounter, int nRow, struct Ware stWare)
{
    Add(oCounter, VAR_STOCK + IntToString(nRow), -1);
    SpeakString("One " + stWare.sName + " for " + Coins(stWare.nPrice) + ", and "
        + Coins(Add(OBJECT_SELF, VAR_COINS, stWare.nPrice)) + " in the box.");
    DelayCommand(20000, Restock(oCounter, nRow));
}

void main()
{
    object oCounter = GetObjectByTag("COUNTER");
    int nRow = Random(GetLocalInt(oCounter, "rows"));
    struct Ware stWare = GetWare(oCounter, nRow);
    if (stWare.nStock > 0)
        Sell(oCounter, nRow, stWare);
    else
        SpeakString("No " + stWare.sName + " today.");
}

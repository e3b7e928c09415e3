// Prices of the shop.
int Price(string sWare, int nCount)
{
    int nPrice = StringToInt(Get2DAString("prices", "COST", RowOf(sWare)));
    return nPrice * nCount;
}

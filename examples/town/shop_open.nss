// The merchant fills the counter from the price list. The list ends at the first row without name.
#include "inc_town"

void main()
{
    object oCounter = GetObjectByTag("COUNTER");
    int nRow = 0;
    do
    {
        SetLocalInt(oCounter, VAR_STOCK + IntToString(nRow),
            StringToInt(Get2DAString("prices", "Stock", nRow)));
    }
    while (Get2DAString("prices", "Name", ++nRow) != "");
    SetLocalInt(oCounter, "rows", nRow);
    SpeakString("The shop is open, with " + IntToString(nRow) + " wares.");
}

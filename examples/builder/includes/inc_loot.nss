#include "inc_base"

// What lies in a container: a list of names with commas between them, the first one taken first.
const string INSIDE = "inside";

string TakeFirst(object oFrom)
{
    string sInside = GetLocalString(oFrom, INSIDE);
    int nAt = FindSubString(sInside, ",");
    if (nAt < 0) nAt = GetStringLength(sInside);
    string sFirst = GetStringLeft(sInside, nAt);
    SetLocalString(oFrom, INSIDE,
        GetSubString(sInside, nAt + 1, GetStringLength(sInside) - nAt - 1));
    return sFirst;
}

void PutInto(object oTo, string sThing)
{
    string sInside = GetLocalString(oTo, INSIDE);
    if (sInside != "") sInside += ",";
    SetLocalString(oTo, INSIDE, sInside + sThing);
}

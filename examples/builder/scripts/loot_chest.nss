// A chest gives out what lies in it, one thing a use.
#include "inc_loot"

void main()
{
    object oUser = GetLastUsedBy();
    string sThing = TakeFirst(OBJECT_SELF);
    if (sThing == "")
    {
        SpeakString("The chest is empty.");
        return;
    }
    CreateItemOnObject(sThing, oUser);
    PrintString(GetTag(OBJECT_SELF) + " gives " + sThing);
}

// A door is opened: who comes in is greeted once, and the door falls shut after five seconds.
#include "inc_base"

void Shut()
{
    if (!GetIsOpen(OBJECT_SELF)) return;
    ActionCloseDoor(OBJECT_SELF);
    PlaySound("as_dr_woodlgcl1");
}

void main()
{
    object oGuest = GetLastOpenedBy();
    if (GetIsPC(oGuest) && IsOnce(oGuest, GetTag(OBJECT_SELF)))
        AssignCommand(GetObjectByTag("INNKEEPER"), SpeakString("Welcome to the Blue Heron!"));
    DelayCommand(5000, Shut());
}

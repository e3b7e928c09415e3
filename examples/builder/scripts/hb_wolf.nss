// A wolf's heartbeat: it growls at whoever comes near the den.
void main()
{
    object oNear = GetNearestObjectByTag("HUNTER");
    if (GetIsObjectValid(oNear) && GetDistanceBetween(OBJECT_SELF, oNear) < 5.0)
        SpeakString("Grrr!", TALKVOLUME_SHOUT);
}

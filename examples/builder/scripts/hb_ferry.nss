// A ferry's heartbeat: it crosses the river in a quarter of an hour.
void main()
{
    float fCrossed = 0.25;
    int nTrips = GetLocalInt(OBJECT_SELF, "trips");
    SetLocalInt(OBJECT_SELF, "trips", nTrips + 1);
    PrintFloat(fCrossed * nTrips);
}

// The guard's heartbeat: each second round a patrol, else a report half a second later. The
// report keeps the number of the round in which it was ordered.
#include "inc_town"

void Report(int nRound)
{
    SpeakString("Round " + IntToString(nRound) + ": all is well.");
}

void main()
{
    int nRound = Add(OBJECT_SELF, "round");
    if (nRound % 2 == 0)
    {
        ExecuteScript("patrol");
        return;
    }
    DelayCommand(500, Report(nRound));
    nRound = -1;    // too late for the report
}

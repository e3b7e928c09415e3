// A message goes from runner to runner; the last one reads it out.
#include "inc_patrol"
#include "inc_talk"

const int RUNNERS = 4;

void Hand(int nRunner, string sMessage)
{
    object oRunner = GetObjectByTag("RUNNER", nRunner);
    if (nRunner + 1 == RUNNERS) AssignCommand(oRunner, SpeakString(sMessage));
    else
    {
        AssignCommand(oRunner, Visit(PostOf("RELAY_" + IntToString(nRunner), SECOND)));
        DelayCommand(ROUND, Hand(nRunner + 1, sMessage + "."));
    }
    Please(oRunner);
}

void main()
{
    Hand(0, "The bridge is out");
}

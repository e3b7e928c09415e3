#include "inc_base"

// Times are whole milliseconds; a round has six seconds.
const int SECOND = 1000;
const int ROUND = 6000;
const int HOUR = 120000;

const int WATCH_DAY = 0;
const int WATCH_EVENING = 1;
const int WATCH_NIGHT = 2;

int Watch(int nHour)
{
    switch (nHour / 6)
    {
        case 0: return WATCH_NIGHT;
        case 3: return WATCH_EVENING;
    }
    return WATCH_DAY;
}

string WatchName(int nWatch)
{
    if (nWatch == WATCH_NIGHT) return "the night watch";
    if (nWatch == WATCH_EVENING) return "the evening watch";
    return "the day watch";
}

// Whether so many rounds have gone since this was last true of the holder.
int IsRound(object oHolder, int nRounds)
{
    return Count(oHolder, "rounds") % nRounds == 0;
}

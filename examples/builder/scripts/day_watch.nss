// The captain of the watch speaks by the hour.
void main()
{
    switch (GetTimeHour())
    {
        case 6:
            string sMorning = "Up with you!";
            SpeakString(sMorning);
            break;
        case 18:
            SpeakString("Light the lamps!");
            break;
    }
}

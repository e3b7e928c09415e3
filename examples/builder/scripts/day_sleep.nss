// Who lies down at night sleeps for eight hours.
void main()
{
    if (!GetIsNight()) return;
    effect eSleep = EffectSleep();
    ApplyEffectToObject(DURATION_TYPE_TEMPORARY, eSleep, OBJECT_SELF, HoursToSeconds(8));
}

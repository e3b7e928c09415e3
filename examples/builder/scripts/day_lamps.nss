// At dusk all lamps of the street are lit, one after the other.
const int LAMPS = 5;

void main()
{
    int n;
    for (n = 0; n < LAMPS; n++)
    {
        object oLamp = GetObjectByTag("LAMP", n);
        if (!GetIsObjectValid(oLamp)) break;
        DelayCommand(400 * n, AssignCommand(oLamp, ExecuteScript("hb_lamp", oLamp)));
    }
    PrintString(IntToString(n) + " lamps");
}

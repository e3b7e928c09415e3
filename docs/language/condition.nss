int StartingConditional()
{
    PrintInteger(1);
    return FALSE;
}

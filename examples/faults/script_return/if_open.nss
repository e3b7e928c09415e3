int StartingConditional()
{
    while (TRUE)
    {
        if (GetLocalInt(OBJECT_SELF, "open")) return TRUE;
    }
}

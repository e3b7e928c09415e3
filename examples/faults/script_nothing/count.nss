int Count(object o)
{
    if (o == OBJECT_INVALID)
    {
        return;
    }
    return GetLocalInt(o, "count");
}

void main()
{
    PrintInteger(Count(OBJECT_SELF));
}

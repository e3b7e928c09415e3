void main()
{
    PrintInteger(7);
    PrintString("a");
    PrintObject(OBJECT_SELF);
}

void main()
{
    PrintInteger(7 - 2 * 3);
    PrintString("a" + "b");
    PrintInteger(1 / 0);
    PrintInteger(8);
}

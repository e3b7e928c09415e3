void main()
{
    PrintInteger(-2);
    PrintInteger(~2);
    PrintInteger(!2);
}

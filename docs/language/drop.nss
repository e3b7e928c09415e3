void main()
{
    1 + 2;
    abs(-6);
    PrintInteger(3);
    ;
}

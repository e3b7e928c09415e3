void main()
{
    int n = 2;
    n += n = 5;
    PrintInteger(n);
}

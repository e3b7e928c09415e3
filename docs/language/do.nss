void main()
{
    int n = 5;
    do n++; while (n < 2);
    PrintInteger(n);
}

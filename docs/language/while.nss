void main()
{
    int n;
    while (n < 2) n++;
    PrintInteger(n);
}

void main()
{
    int n;
    if (n == 0) PrintInteger(1);
}

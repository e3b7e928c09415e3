void main()
{
    int n;
    for (n = 1; n < 3; n++) PrintInteger(n);
}

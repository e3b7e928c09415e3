void main()
{
    int n;
    if (n) PrintInteger(1);
    else PrintInteger(2);
}

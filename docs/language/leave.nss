void main()
{
    int n;
    while (1)
    {
        int m = n++;
        if (m == 0) continue;
        break;
    }
    PrintInteger(n);
}

int g;

void main()
{
    int n;
    g = n = 4;
    PrintInteger(g + n);
}

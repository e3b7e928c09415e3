int g = 5;

void main()
{
    int n = 6;
    PrintInteger(g);
    PrintInteger(n);
    PrintInteger(TRUE);
}

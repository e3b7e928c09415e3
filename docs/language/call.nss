int f(int a, int b = 3) { return a - b; }

void main()
{
    int n = 1;
    PrintInteger(f(n, n = 5));
    PrintInteger(f(n));
}

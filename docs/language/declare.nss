struct P { int n; string s; };

void main()
{
    int a = 4, b;
    struct P p;
    PrintInteger(a + b + p.n);
}

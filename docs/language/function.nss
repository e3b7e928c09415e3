void F(int a, int b);

void main() { F(1, 2); }

void F(int a, int b)
{
    int n = a - b;
    PrintInteger(n);
}

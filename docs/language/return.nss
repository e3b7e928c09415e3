int f(int a)
{
    int n = a + 1;
    return n;
}

void main() { PrintInteger(f(2)); }

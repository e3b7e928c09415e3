void main()
{
    int n = 1;
    PrintInteger(n++);
    PrintInteger(--n);
}

void main()
{
    int n;
    PrintInteger(n && n++);
    PrintInteger(n);
}

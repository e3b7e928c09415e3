void main()
{
    int n = 3;
    PrintInteger(n || n++);
    PrintInteger(n);
}

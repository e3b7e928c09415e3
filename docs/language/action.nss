void main()
{
    int n = 1;
    DelayCommand(1000, PrintInteger(n));
    n = 2;
    PrintInteger(n);
}

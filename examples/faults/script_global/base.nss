int Base()
{
    return 10;
}

int nBase = Base();

void main()
{
    PrintInteger(nBase);
}

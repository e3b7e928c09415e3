int Random(int nSides)
{
    return nSides / 2;
}

void main()
{
    PrintInteger(Random(6));
}

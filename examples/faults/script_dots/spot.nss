struct Spot
{
    int nX;
};

void main()
{
    struct Spot s;
    PrintInteger(s..nX);
}

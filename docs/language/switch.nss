void main()
{
    switch (2)
    {
        case 1: PrintInteger(1);
        case 2: PrintInteger(2);
        default: PrintInteger(3);
    }
}

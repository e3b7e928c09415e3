#include "inc_price"

void main()
{
    PrintInteger(Price("rope", 2));
}

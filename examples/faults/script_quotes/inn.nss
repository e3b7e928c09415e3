#include inc_inn

void main()
{
}

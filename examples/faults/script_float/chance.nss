float fChance = 0.25;

void main()
{
}

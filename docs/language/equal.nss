struct P { int x, y; };

void main()
{
    struct P p, q;
    q.y = 1;
    PrintInteger(p == q);
    PrintInteger("a" != "b");
}

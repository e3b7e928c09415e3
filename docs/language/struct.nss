struct P { int x, y; };
struct Q { struct P p; string s; };

void main()
{
    struct Q q;
    q.p.y = 5;
    struct P p = q.p;
    PrintInteger(p.y);
}

struct P { int x, y; };

struct P Make(int n)
{
    struct P p;
    p.y = n;
    return p;
}

void main() { PrintInteger(Make(4).y); }

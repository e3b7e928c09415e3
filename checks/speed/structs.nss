struct S { int a; int b; string s; object o; int c; int d; int e; int f; };
void main() {
    struct S p;
    struct S q;
    p.a = 1;
    while (1) { q = p; p = q; q.a = p.b + 1; }
}

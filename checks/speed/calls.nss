int f(int a, int b) {
    int c = a + b;
    if (c > 100) return a - b;
    return c;
}
void main() {
    int i;
    int x;
    for (i = 0; i < 100000000; i++) {
        x = f(x, i) & 255;
        switch (x) {
            case 1: x += 2; break;
            case 7: x = x ^ 3; break;
            default: x = x + 1;
        }
    }
}

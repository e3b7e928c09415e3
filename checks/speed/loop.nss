void main() {
    int i;
    int x;
    while (i < 100000000) { x = x * 31 + i; i++; }
}

int Sum(int n, int m) { return n + m; }
void main() { PrintInteger(Sum(1)); }

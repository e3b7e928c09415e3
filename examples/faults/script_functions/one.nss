int Sum(int n) { return n; }
void main() { PrintInteger(Sum(1)); }

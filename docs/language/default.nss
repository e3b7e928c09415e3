void F(int a, int b = 7);

void main() { F(1); }

void F(int a, int b = 9) { PrintInteger(b); }

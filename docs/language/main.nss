void F() { PrintInteger(1); }

void main() { F(); }

int g = 1;
int h = g + 1;

void main() { PrintInteger(h); }

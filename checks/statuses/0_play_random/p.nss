void main() { PrintInteger(Random(6)); }

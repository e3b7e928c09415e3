void main() { PrintInteger(2+3); }

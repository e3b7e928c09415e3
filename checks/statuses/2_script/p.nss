void main() { float f; }

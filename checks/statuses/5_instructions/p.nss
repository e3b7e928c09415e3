void main() { while(TRUE) {} }

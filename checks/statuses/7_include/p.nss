#include "inc"
void main() {}

#include "nope"
void main() {}

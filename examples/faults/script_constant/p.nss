const int COINS = ;
void main() {}

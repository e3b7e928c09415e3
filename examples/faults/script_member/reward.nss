struct Reward
{
    int nCoins;
    string sTold;
};

void main()
{
    struct Reward rw;
    rw.nCoin = 10;
}

const int K = -3;
const string S = "a";

void main()
{
    PrintInteger(K);
    PrintString(S);
}

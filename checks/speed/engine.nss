void main() {
    int i;
    string s;
    while (1) { s = IntToString(i++) + "x" + GetStringLeft("abcdefgh", 3); }
}

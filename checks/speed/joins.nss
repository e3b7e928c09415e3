void main() {
    int i;
    string s = "abc";
    while (1) { if (s + "x" == "abcx") i++; }
}

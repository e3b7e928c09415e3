void main() {
    int i;
    object o = GetObjectByTag("t0");
    for (i = 0; i < 100000; i++) SetLocalInt(o, "v" + IntToString(i), i);
    int s;
    for (i = 0; i < 100000; i++) s += GetLocalInt(o, "v" + IntToString(i));
    PrintInteger(s);
}

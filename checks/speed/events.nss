void main() {
    int i;
    int s;
    object o = OBJECT_SELF;
    SetLocalInt(o, "n", GetLocalInt(o, "n") + 1);
    for (i = 0; i < 20; i++) s += i;
}

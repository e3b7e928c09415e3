void main() {
    int i;
    object o = GetObjectByTag("t0");
    effect e = EffectHeal(1);
    for (i = 0; i < 100000; i++) ApplyEffectToObject(2, e, o, 0);
    for (i = 0; i < 10000; i++) ApplyEffectToObject(1, e, o, 1 + i);
}

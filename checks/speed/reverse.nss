void main() {
    int i;
    object o = GetObjectByTag("t0");
    effect e = EffectHeal(1);
    for (i = 0; i < 80000; i++) ApplyEffectToObject(1, e, o, 80000 - i);
}

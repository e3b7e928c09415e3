void main() {
    int i;
    object o = GetObjectByTag("t0");
    effect e;
    for (i = 0; i < 40000; i++) ApplyEffectToObject(1, e, o, 1000 + i);
    for (i = 0; i < 40000; i++) RemoveEffect(o, e);
    for (i = 0; i < 400000; i++) ApplyEffectToObject(2, e, o, 0);
}

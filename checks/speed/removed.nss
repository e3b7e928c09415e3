void main() {
    int i;
    object o = GetObjectByTag("t0");
    for (i = 0; i < 50000; i++) ApplyEffectToObject(2, EffectHeal(i), o, 0);
    for (i = 49999; i >= 0; i--) RemoveEffect(o, EffectHeal(i));
}

// A purse takes part of the coins of who opens it, in fire.
void main()
{
    object oThief = GetLastOpenedBy();
    TakeGoldFromCreature(GetGold(oThief) / 10, oThief, TRUE);
    ApplyEffectToObject(DURATION_TYPE_INSTANT, EffectDamage(4, DAMAGE_TYPE_FLAME), oThief);
}

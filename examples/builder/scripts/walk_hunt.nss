// A hound goes after the first of its prey that is there.
object Prey()
{
    int n;
    for (n = 0; n < 3; n++)
    {
        object oPrey = GetObjectByTag("HARE", n);
        if (GetIsObjectValid(oPrey)) return oPrey;
    }
}

void main()
{
    ActionMoveToObject(Prey(), TRUE);
}

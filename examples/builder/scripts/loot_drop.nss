// What was carried falls to the ground where its bearer stands.
void main()
{
    object oBearer = GetExitingObject();
    CreateObject(OBJECT_TYPE_ITEM, "it_torch", GetLocation(oBearer));
}

const object HOME = OBJECT_SELF;

void main()
{
    SetLocalInt(HOME, "home", TRUE);
}

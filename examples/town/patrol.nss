// A patrol past all posts of the town, as actions of whoever runs it.

void Reach(object oPost, int nPost)
{
    PrintString(GetTag(OBJECT_SELF) + " at post " + IntToString(nPost));
    PrintObject(oPost);
}

void main()
{
    int nPost = 0;
    ClearAllActions();
    while (TRUE)
    {
        object oPost = GetObjectByTag("WP_POST", nPost);
        if (!GetIsObjectValid(oPost)) break;
        nPost++;    // a delayed call keeps the value that a variable has now
        ActionDoCommand(Reach(oPost, nPost));
        ActionWait(1000);
    }
    ActionSpeakString("Nobody passed " + IntToString(nPost) + " posts.");
}

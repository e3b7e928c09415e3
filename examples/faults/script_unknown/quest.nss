void main()
{
    int nState = GetLocalInt(OBJECT_SELF, "quest"); if (nState == 0) SpeakString("Look after the mill, will you?"); else if (nState == 1) SpeakString("Is the mill still standing?"); else SpeekString("Thank you.");
}

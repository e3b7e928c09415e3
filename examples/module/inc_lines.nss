// Lines for scripts of this module.

// "1 goblin", "3 goblins"
string Count(int nCount, string sWhat)
{
    if (nCount == 1) return "1 " + sWhat;
    return IntToString(nCount) + " " + sWhat + "s";
}

void Greet(string sWho)
{
    SpeakString("Well met, " + sWho + "!");
}

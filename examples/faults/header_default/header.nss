int    OBJECT_TYPE_INVALID = 32767;

// Speak a line of a conversation.
void SpeakOneLiner(string sDialog="", object oTarget=OBJECT_TYPE_INVALID);

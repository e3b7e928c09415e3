#include "inc_util"
void main() { int n = GetLocalInt(OBJECT_SELF, "count") + 1; SetLocalInt(OBJECT_SELF, "count", n); ActionSpeakString(Say(n)); DelayCommand(6000, PrintInteger(n)); }

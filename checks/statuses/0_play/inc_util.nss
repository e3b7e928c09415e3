string Say(int n) { return "round " + IntToString(n); }

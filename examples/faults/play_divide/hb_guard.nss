// The guard shares the day's coins out to those who are awake.
int Share(int nSum, int nAwake) {
    int nEach = nSum / nAwake;
    return nEach;
}

void main() {
    int nAwake = GetLocalInt(OBJECT_SELF, "awake");
    DelayCommand(6, PrintInteger(Share(60, nAwake)));
    SetLocalInt(OBJECT_SELF, "awake", 3);
}

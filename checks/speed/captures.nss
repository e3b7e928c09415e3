void p(int a, int b) { }
void main() {
    int i;
    for (i = 0; i < 20000; i++) DelayCommand(i, p(i, 3));
}

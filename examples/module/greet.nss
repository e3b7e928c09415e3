// A greeting at once, and a second one two seconds later. The include has the functions.
#include "inc_lines"

void main()
{
    int nGoblins = 1;
    Greet(Count(nGoblins, "goblin"));
    nGoblins = nGoblins + 2;
    DelayCommand(2000, Greet(Count(nGoblins, "goblin")));
    nGoblins = 0;    // too late: the delayed call keeps the 3
}

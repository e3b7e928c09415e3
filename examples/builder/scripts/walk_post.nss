// A guard goes to its post; the include was renamed to inc_patrol.
#include "inc_walk"

void main()
{
    Walk("POST_1");
}

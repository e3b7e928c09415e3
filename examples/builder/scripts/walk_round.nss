// A round by four posts, each with a wait of its own and a word at the last one.
#include "inc_patrol"

void main()
{
    ClearAllActions();
    Visit(PostOf("POST_MILL", 2 * SECOND));
    Visit(PostOf("POST_INN", 4 * SECOND));
    Visit(PostOf("POST_CHAPEL", ROUND));
    Visit(PostOf("POST_GATE", SECOND, "Nobody on the road."));
}

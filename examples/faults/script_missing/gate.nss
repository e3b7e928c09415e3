#include "inc_gate"
#include "inc_lock"

void main()
{
    Open(OBJECT_SELF);
}

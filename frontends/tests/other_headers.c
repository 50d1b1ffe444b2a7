/* The other file with headers.h: nothing here reads what set_state writes. */
#include "headers.h"

int second(int n)
{
    set_state(n);
    return n;
}

/* A file that takes in another one, which is also compiled by itself: the one by itself reads what it sets. */
/* files: other_taken_in.c */
#define TAKEN_IN
#include "other_taken_in.c"

int use(int n)
{
    count(n);
    return n;
}

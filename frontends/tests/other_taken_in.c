/* Taken in by taking_in.c. */
static int counted;

static inline void count(int n)
{
    counted = n;            /* read where the file is by itself */
}

#ifndef TAKEN_IN
int counted_now(int n)
{
    int gone = n;           /* expect: assignment to 'gone' is dead */
    count(n);
    return counted;
}
#endif

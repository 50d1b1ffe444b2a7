/* Functions in a header, of which each file has a copy. */
static int state, spare;

static inline void set_state(int x)
{
    int twice = x * 2;      /* expect: assignment to 'twice' is dead */
    state = x;              /* read in headers.c alone: not dead */
    spare = x;              /* expect: assignment to 'spare' is dead */
}

static inline int pick(int x)
{
    if (x > 3)
        return state;       /* reached in both files */
    return x;
}

static int helper_of_both(int x)
{
    return x;
}

#define KEEP(x, y) ((y) = (x) + 1)

/* Parameters, results, and locals that are unset again at each call. A library: any of its functions may be called. */
int outside(int);
int shown;
static int hidden;

static int helper(int n, int unread)
{
    int fresh;
    if (n > 3)
        fresh = n;
    return fresh;           /* expect: 'fresh' may be used before it is set */
}

static int remembers(int n)
{
    int fresh;
    if (n)
        fresh = 1;
    return fresh;           /* expect: 'fresh' may be used before it is set */
}

int first(int n)
{
    int taken;
    shown = 1;              /* outside may read shown */
    hidden = 1;             /* outside may call first again, which may end the program: not told (docs/C.md, ends) */
    outside(n);
    shown = 2;              /* line 33 writes it before anyone reads it */ /* expect: assignment to 'shown' is dead */
    hidden = helper(n, 4);
    taken = helper(n, 5);   /* expect: assignment to 'taken' is dead */
    n = helper(n, 6);       /* n is in use across line 28, so that outside's call of first may keep it: not told */
    taken = n * 2;
    shown = taken;          /* other files may read it; taken is not in use across a call */
    n = outside(4);
    return n + hidden;
}

int second(int n)
{
    remembers(1);           /* sets fresh; the next call's fresh is unset all the same */
    return remembers(n);
}

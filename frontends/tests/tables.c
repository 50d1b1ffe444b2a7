/* Calls through pointers reach each function whose address is taken, by an initialiser too. */
/* options: --whole */
int printf(const char *, ...);

static int seen, total;

static int add(int n)
{
    total = total + n;
    seen = 1;
    return total;
}

static int skip(int n)
{
    return n;
}

static int (*const actions[])(int) = { add, skip };

static int never_called(int n)   /* expect: 'never_called' is never called */
{
    return n + 1;
}

int main(int argc, char **argv)
{
    int r;
    total = 3;              /* add reads it */
    seen = 0;               /* skip keeps it, and line 32 reads it */
    r = actions[argc & 1](argc);
    r = r + seen;           /* reads what add or line 30 wrote */
    seen = 2;               /* expect: assignment to 'seen' is dead */
    seen = r;
    return seen;
}

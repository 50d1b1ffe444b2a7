/* Nested functions of one name are told apart, also where one never comes back. */
/* options: --whole */
#include <stdlib.h>
int printf(const char *, ...);

static int ends(int n)
{
    __attribute__((noreturn)) void inner(int z) { exit(z); }
    n = 4;                  /* expect: assignment to 'n' is dead */
    inner(3);
    return n;               /* expect: never reached */
}

static int goes_on(int n)
{
    int inner(int z) { return z + 1; }
    int after;
    inner(n);
    after = n * 2;          /* reached */
    return after;
}

static int leaps(int n)
{
    __label__ out;
    int inner(int z) { if (z > 3) goto out; return z; }
    n = inner(n);           /* noted: 'leaps' is taken as unknown code */
out:
    return n;
}

static int writes(volatile int *p)
{
    int inner(volatile int *q)
    {
        *q = 1;
        *q = 2;
        return 0;
    }
    return inner(p);
}

static int sets(int *p)
{
    int inner(int *q)
    {
        *q = 1;             /* expect: assignment to '*q' is dead */
        *q = 2;             /* note: overwritten here */
        return *q;
    }
    return inner(p);
}

int main(int argc, char **argv)
{
    if (argc > 5)
        ends(argc);
    return goes_on(argc) + leaps(argc) + writes(&argc) + sets(&argc);
}

/* Procedures that may be active twice. */
/* options: --whole */
int printf(const char *, ...);

static int factorial(int n)
{
    int below;
    if (n < 2)
        return 1;
    below = factorial(n - 1);
    return n * below;       /* n is in use across the call, below is not: both are set */
}

static int walk(int depth)
{
    int kept = depth * 2;   /* in use across the call: read on line 22 */
    int spare = 1;          /* expect: initial value of 'spare' is dead */
    int twice;
    if (depth > 0)
        walk(depth - 1);
    twice = depth * 2;      /* another activation's depth * 2 says nothing of this one's */
    return kept + twice;
}

static int overwritten(int depth)
{
    int kept;
    if (depth == 0) {
        kept = 4;
        return printf("%d", kept);
    }
    kept = depth * 2;       /* each inner activation writes a kept of its own: this one is read below, so not dead */
    overwritten(depth - 1);
    return kept;
}

static int odd(int n);

static int even(int n)
{
    int unset;
    if (n == 0)
        return 1;
    if (n == 7)
        return unset;       /* expect: 'unset' is used before it is set */
    return odd(n - 1);
}

static int odd(int n)
{
    return n == 0 ? 0 : even(n - 1);
}

static int swapped(int a, int b)
{
    a = a + 1;              /* read as an argument below: not dead */
    if (b > 10)
        return b;
    return swapped(b, a);
}

int main(int argc, char **argv)
{
    return factorial(argc) + walk(argc) + even(argc) + overwritten(argc) + swapped(argc, 1);
}

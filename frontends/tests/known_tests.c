/* Values that gcc sets on two ways and tests behind them: the ways that can't be taken are none. */
/* options: --whole */
int printf(const char *, ...);

struct value { int tag, number; };

#define likely(x) __builtin_expect(!!(x), 1)
#define READ(v, n) ((v)->tag == 3 ? (n = (v)->number, 1) : ((v)->tag == 4 ? (n = 2, 1) : 0))

static int both(struct value *a, struct value *b)
{
    int x, y, z;
    if (READ(a, x) && READ(b, y))
        return x + y;       /* both are set */
    if (likely(READ(a, z)))
        return z;
    return z;               /* expect: 'z' is used before it is set */
}

static int flagged(int n)
{
    int x, ok;
    if (n > 3 && n < 7) {
        x = n;
        ok = 1;
    } else
        ok = 0;
    if (ok)
        return x;
    return n;
}

#define CONFIGURED 0

static int configured(int n)
{
    int x, traced = n * 2;  /* read where it is configured */
    if (CONFIGURED && n > 3) {
        printf("%d", traced + x);   /* nothing is told of what this configuration does not reach */
        n = 3;
    }
    return n;
}

int main(int argc, char **argv)
{
    struct value v = { 3, argc };
    return both(&v, &v) + flagged(argc) + configured(argc);
}

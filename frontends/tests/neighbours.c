/* An expression is named as it is written, and not as one that stands near it. */
/* options: --whole */
#define LOW 1
#define FLAGS (LOW | 4)
enum colour { RED, GREEN = 3, BLUE };

int printf(const char *, ...);

static unsigned remainders(unsigned p0, unsigned g0)
{
    unsigned mixed = g0 & p0;
    unsigned odd = p0 % 2;
    unsigned both = g0 & p0;    /* expect: 'g0 & p0' is already computed */
    unsigned again = p0 % 2;    /* expect: 'p0 % 2' is already computed */
    odd += p0 % 2;          /* expect: 'p0 % 2' is already computed */
    odd += p0 & LOW;        /* expect: 'p0 & LOW' is already computed */
    unsigned part = p0 / 8, rest = p0 % 8;
    part += p0 / 8;         /* expect: 'p0 / 8' is already computed */
    return mixed + odd + both + again + part + rest;
}

static int constants(int c, int other, double d)
{
    int first = c == 'a' && other == 'b';
    if (c == 'a' && first)  /* expect: 'c & FLAGS' is very busy */
        first += c & FLAGS;
    int flagged = c & FLAGS;
    flagged += c & FLAGS;   /* expect: 'c & FLAGS' is already computed */
    int shade = other + GREEN;
    shade += other + BLUE;
    shade += other + GREEN; /* expect: 'other + GREEN' is already computed */
    double half = d * 0.5, whole = d * 2.0;
    half += d * 0.5;        /* expect: 'd * 0.5' is already computed */
    return first + flagged + shade + (half > whole);
}

enum ranks {
    LOWEST,
#ifdef MIDDLE
    BETWEEN,
#endif
    HIGHER, HIGHEST
};

static int ranked(int r, int s)
{
    int first = r + HIGHEST;
    first += r + HIGHEST;   /* expect: 'r + HIGHEST' is already computed */
    return first + (r + 3) + s;
}

static int folded(int p, int v)
{
    int sum = v + 1;
    p += v * p;             /* gcc evaluates p * (v + 1), the source does not */
    return p + sum;
}

static int pointed(char *p, char *q)
{
    char here = 1, row[4] = { 1 };  /* expect: initial value of 'here' is dead */
    int first = (p == &here) + (q == row);
    first += p == (void *)0;
    here = (p == &here) + (&here == q) + (&here == q);  /* expect: '&here == q' is already computed */
    first += p == (void *)0;
    return first + (q == row) + here + row[1];  /* expect: 'q == row' is already computed */
}

int main(int argc, char **argv)
{
    printf("%d %d\n", constants(argc, argc + 1, argc), RED);
    return remainders(argc, argc + 3) + folded(argc, 4) + ranked(argc, 2) + pointed(argv[0], argv[1]);
}

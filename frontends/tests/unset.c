/* Unset: the first use of each variable, with the others as notes; surely so, or maybe; arrays where it is sure. */
/* options: --whole */
/* notes: all */
int printf(const char *, ...);

struct pair { int first, second; };

static int surely(int n)
{
    int x;
    if (n > 3)
        printf("%d", x);    /* expect: 'x' is used before it is set */
    return x + n;           /* note: used here too */
}

static int maybe(int n)
{
    int x;
    if (n > 3)              /* note: on the way the test is not taken */
        x = 4;
    if (n > 2)              /* note: on the way the test is taken */
        n = x + 1;          /* expect: 'x' may be used before it is set */
    return x + n;           /* note: used here too */
}

static int filled(int n)
{
    int cells[10], never[4];
    int i;
    for (i = 0; i < n; i = i + 1)
        cells[i] = i;
    return cells[0] + never[1]; /* expect: 'never[1]' is used before it is set */
}

static int part(void)
{
    struct pair p;
    return p.second;        /* expect: 'p.second' is used before it is set */
}

int main(int argc, char **argv)
{
    return surely(argc) + maybe(argc) + filled(argc) + part();
}

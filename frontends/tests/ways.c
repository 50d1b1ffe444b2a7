/* Ways: by which tests a local comes to its use unset. Told are those whose other way sets it or leads elsewhere. */
/* options: --whole */
/* notes: all */
int printf(const char *, ...);
int scanf(const char *, ...);
void exit(int);

static void ending(int n)
{
    if (n < -1)
        exit(2);
}

#define OUTSIDE(n) ((n) < 0 || (n) > 9)
#define CONFIGURED 0

static int branches(int n, int m)
{
    int x;
    if (n == 7)
        printf("seven");    /* x is as it was on both ways */
    if (n > 3)              /* note: on the way the test is not taken */
        x = n;
    if (m)                  /* note: on the way the test is not taken */
        return n;
    return x + n;           /* expect: 'x' may be used before it is set */
}

static int otherwise(int n)
{
    int x;
    if (n == 1)             /* note: on the way the test is not taken */
        x = 1;
    else if (n == 2)        /* note: on the way the test is not taken */
        x = 2;
    else if (n > 8)         /* note: on the way the test is taken */
        printf("more");
    else
        x = 3;
    return x;               /* expect: 'x' may be used before it is set */
}

static int loops(int n, int m)
{
    int i, last, found;
    for (i = 0; i < n; i++) /* note: on the way the test is not taken */
        last = i;
    while (i--)
        printf("again");    /* the loop ends in any case, as it is taken to */
    while (m--)             /* note: on the way the test leads to line 52 */
        found = m;
    printf("%d", last);     /* expect: 'last' may be used before it is set */
    return found;           /* expect: 'found' may be used before it is set */
}

static int called(int n)
{
    int x;
    if (n > 0)              /* note: on the way the test is not taken */
        scanf("%d", &x);    /* may set x: the way that is told is the other one, though it is longer */
    else {
        printf("1");
        printf("2");
    }
    printf("3");
    return x;               /* expect: 'x' may be used before it is set */
}

static int pointed(int n)
{
    int x, y = 2;
    int *p = &y;
    if (n > 2)              /* note: on the way the test is not taken */
        p = &x;
    *p = 3;                 /* does not lead to x on that way */
    return x + y;           /* expect: 'x' may be used before it is set */
}

static void spin(void)
{
    for (;;)
        ;
}

static int stuck(int n)
{
    int x;
    if (n > 4)              /* note: on the way the test is not taken */
        x = 4;
    else if (n > 2)         /* note: on the way the test is not taken */
        spin();             /* never comes back */
    else {
        printf("1");
        printf("2");
    }
    return x;               /* expect: 'x' may be used before it is set */
}

static int switched(int n)
{
    int x;
    switch (n) {            /* note: on the way the switch leads to line 107 */
    case 1:
        x = 1;
        break;
    case 2:
        printf("two");
        break;
    default:
        x = 3;
    }
    return x;               /* expect: 'x' may be used before it is set */
}

static int parts(int n, int m)
{
    int x, y;
    if (OUTSIDE(m))         /* note: on the way the test leads to line 120 */
        return 3;
    if (n > 3 && m < 5)     /* note: on the way the test leads to line 122 */
        x = 4;
    if (n > 3 || m < 5) {   /* note: on the way the test leads to line 125 */
        y = 4;
    } else
        n = 2;
    n = n == 4 ? (y = 5) : n;   /* the way leads on in this line: not told */
    printf("%d", x);        /* expect: 'x' may be used before it is set */
    return y + n;           /* expect: 'y' may be used before it is set */
}

/* Conditions as gcc turns them round: an outcome is the source's. */
static int turned(int n, int *p, double d)
{
    int a, b, c, e, f, g, h, i, j, k;
    if (n)                  /* note: on the way the test is not taken */
        a = 1;
    if (!n)                 /* note: on the way the test is not taken */
        b = 1;
    if (4 < n)              /* note: on the way the test is not taken */
        c = 1;
    if (n < 4)              /* note: on the way the test is not taken */
        e = 1;
    if (!(n > 4))           /* note: on the way the test is not taken */
        f = 1;
    if (!(d < 3.0))         /* note: on the way the test is not taken */
        g = 1;
    if (!p)                 /* note: on the way the test is not taken */
        h = 1;
    if ((n & 4) == 0)       /* note: on the way the test is taken */
        ;
    else
        i = 1;
    if (printf("(")         /* note: on the way the test is not taken */
        + n) j = 1;
    while (!(n <= 4)) {     /* note: on the way the test leads to line 158 */
        n--, k = 1;
    }
    printf("%d", a + b);    /* expect: 'a' may be used before it is set */ /* expect: 'b' may be used before it is set */
    printf("%d", c + e);    /* expect: 'c' may be used before it is set */ /* expect: 'e' may be used before it is set */
    printf("%d", f + g);    /* expect: 'f' may be used before it is set */ /* expect: 'g' may be used before it is set */
    printf("%d", h + i);    /* expect: 'h' may be used before it is set */ /* expect: 'i' may be used before it is set */
    return j + k;           /* expect: 'j' may be used before it is set */ /* expect: 'k' may be used before it is set */
}

/* Of many notes the first three and the last three are told. */
static int many(int n)
{
    int x;
    if (n == 1)             /* note: on the way the test is not taken */
        x = 1;
    if (n == 2)             /* note: on the way the test is not taken */
        x = 2;
    if (n == 3)             /* note: on the way the test is not taken */
        x = 3;
    if (n == 4)
        x = 4;
    if (n == 5)             /* note: on the way the test is not taken */
        x = 5;
    if (n == 6)             /* note: on the way the test is not taken */
        x = 6;
    if (n == 7)             /* note: on the way the test is not taken */
        x = 7;
    return x;               /* expect: 'x' may be used before it is set */
}

/* Told first is a test by whose other way x is set, then the last ones of the others. */
static int middle(int n)
{
    int x;
    if (n == 1)
        return 1;
    if (n == 2)
        return 2;
    if (n == 3)             /* note: on the way the test is not taken */
        return 3;
    if (n == 4)             /* note: on the way the test is not taken */
        x = 4;
    if (n == 5)             /* note: on the way the test is not taken */
        return 5;
    if (n == 6)             /* note: on the way the test is not taken */
        return 6;
    if (n == 7)             /* note: on the way the test is not taken */
        return 7;
    if (n == 8)             /* note: on the way the test is not taken */
        return 8;
    return x;               /* expect: 'x' may be used before it is set */
}

/* A test whose outcome gcc knows is none, and has one way. */
static int configured(int n)
{
    int x;
    if (CONFIGURED && n > 3)
        goto out;
    if (n > 5)              /* note: on the way the test is not taken */
        x = 5;
    printf("1");
    printf("2");
out:
    return x;               /* expect: 'x' may be used before it is set */
}

/* A way is one of a single activation: none goes by x = n. */
static int recurs(int n)
{
    int x;
    if (n > 3)              /* note: on the way the test is not taken */
        x = n;
    else {
        printf("1");
        printf("2");
    }
    if (n > 5)
        n = recurs(n - 1);
    return x + n;           /* expect: 'x' may be used before it is set */
}

/* That a call may end the program says nothing: the first test is not told. */
static int ends(int n)
{
    int x;
    if (n < 0)
        ending(n);
    if (n == 0)             /* note: on the way the test is not taken */
        exit(1);
    if (n == 1)             /* note: on the way the test is not taken */
        x = 1;
    return x;               /* expect: 'x' may be used before it is set */
}

int main(int argc, char **argv)
{
    return branches(argc, 2) + otherwise(argc) + loops(argc, 2) + called(argc) + pointed(argc) + stuck(argc) + switched(argc) + parts(argc, 2)
        + turned(argc, &argc, argc) + many(argc) + middle(argc) + configured(argc) + recurs(argc) + ends(argc);
}

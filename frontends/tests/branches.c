/* Each kind of branch. */
/* options: --whole */
int printf(const char *, ...);

static int choose(int k)
{
    int r;
    switch (k) {
    case 1:
        r = 10;
        break;
    case 2 ... 5:
        r = 20;
        break;
    case 6:
        printf("six");      /* this case leaves r unset */
    }                       /* and so does the missing default */
    return r;               /* expect: 'r' may be used before it is set */
}

static int all_cases(int k)
{
    int r;
    switch (k) {
    case 1:
        r = 10;
        break;
    default:
        r = 20;
    }
    return r;               /* set on both ways */
}

static int sums(int a, int b)
{
    int z;
    if (a < b)              /* expect: 'a * b' is very busy */
        z = a * b;
    else
        z = 1 + a * b;
    return z + a * b;       /* expect: 'a * b' is already computed */
}

static int steps(int n, int k)
{
    if (k > 1)              /* n is stepped on both ways: nothing is gained before them */
        n++;
    else
        n = 3 * ++n;
    return n;
}

static int loops(int n)
{
    int i, total = 0, first;
    for (i = 0; i < n; i++) {   /* n - 2 is evaluated behind the loop in any case, but at one place: nothing is gained before it */
        total = total + i;
        first = i;
    }
    do {
        n = n - 2;
    } while (n > 0);
    while (total > 100) {
        if (total == 150)
            break;
        total = total - 7;
        continue;
    }
    return total + first;   /* expect: 'first' may be used before it is set */
}

static int short_circuit(int p, int q)
{
    int v;
    if (p > 0 && (v = q) > 0)
        return v;           /* set before its test */
    if (p > 0 || (v = q) > 0)
        return v;           /* expect: 'v' may be used before it is set */
    v = p ? q : 3;
    return v;
}

static int labels(int n)
{
    int k = 0;
again:
    k = k + n;
    if (k < 100)
        goto again;
    goto out;
    k = 0;                  /* expect: never reached */
out:
    return k;
}

int main(int argc, char **argv)
{
    return choose(argc) + all_cases(argc) + sums(argc, 2) + steps(argc, 3) + loops(argc) + short_circuit(argc, 1) + labels(argc);
}

/* Assignments to a variable of itself, and of several at once. */
/* options: --whole */
static int state;

static int itself(int q, int unused)
{
    char c = q;
    q = q;                  /* expect: 'q' is assigned to itself */
    c = (char)(c + 256);
    state = state;          /* expect: 'state' is assigned to itself */
    (void)unused;
    unused = unused;        /* the source says that it need not be read */
    return q + c + state;
}

static char *chained(char *com, int n)
{
    char *head, *end;
    int a, b, d;
    head = end = com;       /* expect: assignment to 'end' is dead */
    end = com + 1;
    a = b = d = n;          /* expect: assignment to 'b' is dead */
    b = a + d;
    for (; n; a = d) d = n--;
    int e = 3, f = e = b;   /* expect: assignment to 'e' is dead */ /* expect: initial value of 'e' is dead */
    return head + (end - com) + a + b + d + f;
}

static int kept(int n)
{
    int a = n, b;
    for (; n > 2; a = b) b = n--;   /* this b is read by a = b */
    return a;
}

static int again(int n)
{
    int a = n, b, c, d;
    for (; n > 2; a = b) b = n--;   /* this b is read by a = b */
    c = d = n > 0 ? again(n - 1) : 0; /* expect: assignment to 'd' is dead */
    d = a;
    return a + c + d;
}

int main(int argc, char **argv)
{
    return itself(argc, 2) + *chained(argv[0], argc) + kept(argc) + again(argc);
}

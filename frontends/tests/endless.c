/* Loops that never end: what is dead is not told where an execution may never end; what is unset is. */
/* options: --whole */
int getchar(void);
int putchar(int);

static void serve(void)
{
    int state, last = 0;    /* dead, but told of no point from which a run may never end */
    for (;;) {
        putchar(state);     /* expect: 'state' may be used before it is set */
        state = getchar();
        last = state;
    }
}

static int quiet(int n)
{
    int gone = 4;           /* expect: initial value of 'gone' is dead */
    while (n > 0)
        n = n - 1;
    gone = n;
    return gone;
}

int main(int argc, char **argv)
{
    if (argc > 3)
        return quiet(argc); /* no way leads from here to serve */
    serve();
    return 0;               /* expect: never reached */
}

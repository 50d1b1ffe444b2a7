/* Very busy expressions are told where their variables can be named. */
/* options: --whole */
/* files: other_scopes.c */
int printf(const char *, ...);
int other(int n);

int shared;
static int own;

static int called(int n)
{
    int a = n, b = shared;
    static int kept;
    kept = kept + 1;
    return a * b + kept;
}

int main(int argc, char **argv)
{
    if (argc > 3)           /* what called and other evaluate can't be named here */ /* expect: 'argc + 2' is very busy */
        own = argc + 2;
    else
        own = 7 * (argc + 2);
    return called(argc) + other(argc) + own;
}

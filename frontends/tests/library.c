/* Without main: what other files can call begins the program. A static function that nobody calls takes nothing away. */
int printf(const char *, ...);

static int helper(int n)
{
    int gone = n;           /* expect: assignment to 'gone' is dead */
    return n + 1;
}

static int forgotten(int n) /* expect: 'forgotten' is never called */
{
    return helper(n);
}

static int by_forgotten(int n)  /* expect: 'by_forgotten' is never called */
{
    return forgotten(n);
}

int open_to_all(int n)
{
    int unread = n * 2;     /* expect: assignment to 'unread' is dead */
    return helper(n);
}

/* Variables that C sets at the start are never told of as unset; volatile ones are not told of at all. */
/* options: --whole */
int printf(const char *, ...);

static int global, counter = 3;
static volatile int port;

static int next(void)
{
    static int kept;
    kept = kept + 1;        /* read by the next call: not dead */
    return kept;
}

static int twice(void)
{
    static int kept;        /* another variable of the same name */
    kept = 5;               /* expect: assignment to 'kept' is dead */
    return 2;
}

int main(int argc, char **argv)
{
    volatile int slow;
    int sum = global + counter;
    port = 1;               /* something outside may look at it */
    port = 2;
    slow = 3;
    sum = sum + port;
    sum = sum + port;
    counter = sum;          /* expect: assignment to 'counter' is dead */
    return sum + next() + next() + twice();
}

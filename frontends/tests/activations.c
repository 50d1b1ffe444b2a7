/* Functions that unknown code may call again while they run, and such as call themselves. */
int other(int n);

int called_back(int n)
{
    int kept = n * 2;
    int result = -1;        /* expect: initial value of 'result' is dead */
    if (n > 3) {
        result = n;
        other(kept);
        kept = 5;           /* expect: assignment to 'kept' is dead */
        return result;
    }
    result = 7;             /* read behind the call, in which an inner activation sets one of its own */
    other(n);
    return result + kept;
}

int by_address(int n)
{
    int seen = n;           /* the pointer leads to it */
    int *pointer = &seen;
    other(n);
    seen = 3;               /* a later activation might still have the pointer, for all that is known */
    return *pointer;
}

int outer(int n)
{
    int was = n;
    n = 7;                  /* expect: assignment to 'n' is dead */
    n = was > 0 ? outer(was - 1) : 1;
    return n + was;
}

int inner(int n)
{
    if (n > 4) {
        n = 4;              /* read behind the call: the argument is another n */
        inner(1);
        return n;
    }
    return other(n);
}

int counted(int n)
{
    int total = 1;          /* expect: initial value of 'total' is dead */
    for (total = 0; n > 0; n--) {
        total += other(total);
        if (total > 100)
            break;
    }
    if (n == 3)
        total = other(9);   /* read below */
    return total;
}

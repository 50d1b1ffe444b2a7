/* The other file of scopes.c: its own is another variable. */
extern int shared;
static int own = 3;

int other(int n)
{
    if (n > 4)              /* expect: 'own * shared' is very busy */
        return own * shared;
    return own * shared + n;
}

/* The other file of names.c. */
extern int shared;

static int cell = 2;

static int helper(int end)
{
    cell = end;             /* read on the next line; the other file's cell is another one */
    return cell * 2;
}

int other(int n)
{
    int r = helper(n) + shared;
    shared = 9;             /* expect: assignment to 'shared' is dead */
    return r;
}

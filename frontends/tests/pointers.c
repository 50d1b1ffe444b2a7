/* Stores and loads through pointers: they may reach what has its address taken, and nothing else. */
/* options: --whole */
int printf(const char *, ...);

static int aimed, spared;

static void put(int *p, int v)
{
    *p = v;                 /* may write aimed and number, may not write spared */
}

int main(int argc, char **argv)
{
    int number = 3;         /* read through the pointer of line 25, as far as is known: not dead */
    int x, y;
    int *where = &aimed;
    if (argc > 1)
        where = &number;
    aimed = 5;              /* *where may read it: not dead */
    spared = 5;             /* expect: assignment to 'spared' is dead */
    spared = argc;          /* no pointer leads to spared, so line 20 is read by nobody */
    x = argc + spared;
    put(where, 4);
    y = argc + spared;      /* expect: 'argc + spared' is already computed */
    x = x + *where;
    y = y + aimed;
    y = y + (argc + aimed);
    put(where, 6);          /* writes aimed or number: argc + aimed is no longer known */
    y = y + (argc + aimed);
    y = y + (argc + aimed); /* expect: 'argc + aimed' is already computed */
    printf("%d %d %d", x, y, aimed);
    return number;
}

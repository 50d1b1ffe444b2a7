/* Executions: code that nothing leads to takes no dead assignment away, though it never ends. */
/* options: --executions */
/* notes: all */
int printf(const char *, ...);

static int counted(int n)
{
    int gone = n * 2;       /* expect: assignment to 'gone' is dead */
    return n + 1;           /* leads back into spin too, which no execution enters */
}

static void spin(int n)
{
    for (;;)
        n = counted(n);     /* expect: never reached */
}

static int early(int n)
{
    int late;
    if (n > 3)              /* note: on the way the test is not taken */
        late = 3;
    if (n)                  /* note: on the way the test is taken */
        n = late;           /* expect: 'late' may be used before it is set */
    return n + late;        /* note: used here too */
}

int main(int argc, char **argv)
{
    int sum = counted(argc) + early(argc);
    int first = argc * 2;   /* expect: assignment to 'first' is dead */
    first = sum - 1;        /* note: overwritten here */ /* note: evaluated here */
    printf("%d", first);
    return sum - 1;         /* expect: 'sum - 1' is already computed */
    spin(sum);              /* expect: never reached */
}

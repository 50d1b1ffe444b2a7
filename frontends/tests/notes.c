/* Notes show why. */
/* options: --whole */
int printf(const char *, ...);

int main(int argc, char **argv)
{
    int x = argc * 2;       /* expect: assignment to 'x' is dead */
    int a = argc, b = argc;
    if (argc > 2)           /* expect: 'a - b' is very busy */
        x = a - b;          /* note: overwritten here */ /* note: evaluated here */
    else
        x = 2 + (a - b);    /* note: overwritten here */
    printf("%d", a - b);    /* expect: 'a - b' is already computed */
    return x;
}

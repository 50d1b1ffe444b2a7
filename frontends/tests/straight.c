/* Statements one after the other. options below: no other file knows these names. */
/* options: --whole */
int printf(const char *, ...);

int main(void)
{
    int a = printf("a");
    int b = printf("b");
    int x = a + b;
    int y = a + b;          /* expect: 'a + b' is already computed */
    int late;
    int unused = a * 3;     /* expect: assignment to 'unused' is dead */
    y = y + late;           /* expect: 'late' is used before it is set */
    x = x - 1;
    a = 2;
    late = a + b;           /* a was written since line 10: nothing is told of a + b here */
    printf("%d %d %d", x, y, late);
    x = -a;                 /* expect: assignment to 'x' is dead */
    return ~a;
    y = a;                  /* expect: never reached */
    return y;
}

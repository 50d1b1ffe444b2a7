/* Arrays, structs, unions and bitfields are one variable each: a store to a part keeps the rest. */
/* options: --whole */
int printf(const char *, ...);

struct pair { int first, second; unsigned bits : 3; };
union either { int number; float real; };

static int table[10];

int main(int argc, char **argv)
{
    struct pair p, q, empty;
    union either e;
    int local[4];
    int i = argc, x, y;
    p.first = 1;            /* the whole of p may be read on line 22 */
    p.second = 2;
    p.bits = 3;
    table[i] = 4;
    x = table[i];
    y = table[i];           /* expect: 'table[i]' is already computed */
    q = p;
    table[0] = x;           /* may be the same element: table[i] is no longer known */
    y = y + table[i];
    e.number = y;
    local[1] = q.first;     /* expect: assignment to 'local[1]' is dead */
    q = p;                  /* expect: assignment to 'q' is dead */
    printf("%d %d %f", x, y, e.real);
    return empty.second;    /* expect: 'empty.second' is used before it is set */
}

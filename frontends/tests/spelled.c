/* Only what stands in the source is told, and as it stands there. */
/* options: --whole */
int printf(const char *, ...);
void *malloc(unsigned long);
void free(void *);

#define SIZE 16
#define NEXT(i) ((i) + 1)
#define BOTH(x) x = 1; x = 2
#define TWICE(x) ((x) * 3 + (x) * 3)

struct item { long key, value; };

static int table[10];
static struct item items[10];

static int elements(int i, struct item *p, unsigned long n)
{
    table[i + 1] += 2;      /* gcc evaluates i + 1 twice, the source once */
    p[i].key = 1;
    p[i].value = 2;         /* gcc multiplies i, the source does not */
    p[n].key = 3;
    p[n].value = 4;
    (p - n)->key = 5;
    (p - n)->value = 6;
    return table[i + 1];    /* expect: 'i + 1' is already computed */
}

static unsigned constants(unsigned size, int i)
{
    int a = i + SIZE;
    int b = i + SIZE;       /* expect: 'i + SIZE' is already computed */
    unsigned c = size - 1;
    unsigned d = size - 1;  /* expect: 'size - 1' is already computed */
    int e = 7 * i;
    int f = i * 7;          /* expect: 'i * 7' is already computed */
    int g = 'a' + i;
    int h = 'a' + i;        /* expect: ''a' + i' is already computed */
    return a + b + c + d + e + f + g + h;
}

static int other_constants(int n, unsigned long m)
{
    int a = n - 1;
    int b = n - 4;
    int c = n - 1;          /* expect: 'n - 1' is already computed */
    unsigned long d = m - 0x11ul;
    unsigned long e = m - 18;
    unsigned long f = m - 021;  /* expect: 'm - 021' is already computed */
    return a + b + c + d + e + f;
}

static unsigned long scaled(struct item *p, unsigned long n)
{
    unsigned long size = 16 * n;
    p[n - 1].key = 1;       /* gcc multiplies n and then takes 16 away, the source does not */
    return size;
}

static int macros(int i)
{
    int x, y;
    BOTH(x);                /* the second x = 1 of the place is read */
    y = NEXT(i);
    y = y + NEXT(i);        /* expect: 'i + 1' is already computed */
    return x + y + TWICE(i);    /* the first i * 3 of the place is new */
}

#define KEPT(x, y) (y = (x) + 2, (x) * 2)
#define LOST(x, y) (y = (x) + 3, (x) * 3)
#define FREE(x) do { free(x); (x) = 0; } while (0)

static int by_macro(int i, int n)
{
    int y, z;
    n = n + KEPT(i, y);     /* this y is not read, but that of the next line is: the macro needs it */
    n = n * KEPT(n, y) + y;
    n = n + LOST(i, z);     /* expect: assignment to 'z' is dead */
    return n + LOST(n, z);  /* expect: assignment to 'z' is dead */
}

struct context { int error; };
#define PUT(c, n) ((n) > 3 ? ((c)->error = (n) + 1, 0) : (n))

static int put(struct context *c, int n)
{
    return PUT(c, n);
}

static int ignored(int n)
{
    struct context own;
    return PUT(&own, n);    /* own.error is not read, but what put sets by the macro is */
}

static int freed(int n)
{
    char *p = malloc(n);
    FREE(p);                /* a macro sets p to zero for those that use it again */
    p = malloc(n + 8);
    free(p);
    p = 0;                  /* expect: assignment to 'p' is dead */
    return n;
}

static int steps(int i, int n)
{
    int before = i + 1;
    i++;                    /* expect: 'i + 1' is already computed */
    n = before + n;
    before += n;
    return n + before + i;
}

int main(int argc, char **argv)
{
    struct context all = { 0 };
    if (put(&all, argc) + ignored(argc) > all.error)
        return 1;
    return elements(argc, items, argc) + constants(argc, argc) + macros(argc) + steps(argc, 2)
        + by_macro(argc, 1) + other_constants(argc, 5) + scaled(items, 3) + freed(argc);
}

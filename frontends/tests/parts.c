/* Parts of what no pointer leads to, and what a pointer leads to, by variables of their own. */
/* options: --whole */
struct point { int x, y; };
struct deep { struct point from, to; union { int whole; short half; } value; };
union either { int number; float real; };

static int fields(int c)
{
    struct point p;
    p.x = c;                /* expect: assignment to 'p.x' is dead */
    p.y = c + 1;
    p.x = 2;                /* note: overwritten here */
    return p.x + p.y;
}

static int unset_field(int c)
{
    struct point p;
    p.x = c;
    return p.x + p.y;       /* expect: 'p.y' is used before it is set */
}

static int unset_element(void)
{
    int a[4];
    a[0] = 1;
    a[1] = 2;
    return a[0] + a[1] + a[2];  /* expect: 'a[2]' is used before it is set */
}

static int by_index(int i)
{
    int a[4];
    a[i & 3] = 1;           /* may set a[2] */
    return a[2];
}

static int read_by_index(int i)
{
    int a[3] = { 5, 6, 7 }; /* expect: initial value of 'a[1]' is dead */
    a[1] = 3;               /* may be read */
    i = a[i];
    a[1] = 4;
    return a[1] + i;
}

static int tested_by_index(int c)
{
    int a[3] = { 5, 6, 7 }; /* expect: initial value of 'a[2]' is dead */
    a[2] = c;
    for (int i = 0; i < 3; i++)
        if (a[i] == c)
            return i;
    return 4;
}

static int members(int c)
{
    union either u;
    u.number = c;           /* read as real */
    c = u.real > 1;
    u.number = 3;           /* expect: assignment to 'u.number' is dead */
    u.number = 4;
    return u.number + c;
}

static int inner(int c)
{
    struct deep d;
    d.from.x = c;           /* expect: assignment to 'd.from.x' is dead */
    d.from.x = 1;
    d.to.x = 2;
    d.value.whole = c;
    c = d.value.half;       /* of the same place as whole */
    d.value.whole = 3;
    return d.from.x + d.to.x + c + d.value.whole;
}

static int whole(struct point q)
{
    struct point p;
    p.x = 1;                /* expect: assignment to 'p.x' is dead */
    p = q;
    q.y = 3;                /* expect: assignment to 'q.y' is dead */
    q.y = 4;
    return p.x + p.y + q.x + q.y;
}

static struct point given(int c)
{
    struct point p;
    p.x = c;
    return p;               /* all of it is given, also what is unset */
}

static int behind(int *p, int *q)
{
    *p = 1;                 /* expect: assignment to '*p' is dead */
    *p = 2;                 /* expect: assignment to '*p' is dead */
    *q = 3;                 /* p may lead there */
    *p = 4;
    int c = *q;
    *q = 5;
    p = q;
    *p = 6;
    return c;
}

static void to_fields(struct point *p, int c)
{
    p->x = 1;               /* expect: assignment to 'p->x' is dead */
    p->y = 2;
    p->x = 3;
    if (c)
        p->y = p->x;
    p->x = 4;
}

static struct point given_at_once(struct point *p, struct point q)
{
    struct point own;
    *p = (struct point){ 1, 2 };    /* gcc sets p->x and p->y, the source does not */
    p->x = 3;
    own = (struct point){ q.x, 4 };
    own.x = 5;
    own.y += q.y;           /* expect: assignment to 'own.y' is dead */
    own.y = 6;
    return own;
}

static void called(struct point *p)
{
    p->x = 1;
    to_fields(p, 1);
    p->x = 2;
}

static void by_volatile(volatile int *p, struct point *q)
{
    *p = 1;
    *p = 2;
    for (int i = 0; i < 3; i++)
        q->y = i;           /* expect: assignment to 'q->y' is dead */
    q->y = 7;
}

int main(int c, char **v)
{
    struct point a = { 1, 2 }, b = { 3, 4 };
    int m = 3, n = 4;
    by_volatile(&m, &a);
    called(&a);
    a = given_at_once(&b, a);
    to_fields(&b, c);
    return fields(c) + unset_field(c) + unset_element() + by_index(c) + read_by_index(c & 1) + tested_by_index(c) + members(c) + inner(c)
        + whole(a) + given(c).x + behind(&m, &n) + m + n + b.x + a.x + a.y;
}

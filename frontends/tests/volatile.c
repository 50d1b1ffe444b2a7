/* A parameter that is volatile reads its argument, as one of any other kind does. */
#include <setjmp.h>

struct pair { int first; volatile int second; };
union either { int number; float real; };

static int of_number(int volatile x) { return x; }
static int of_two(int plain, int volatile x, int last) { return plain + x + last; }
static int of_pair(struct pair p) { return p.first + p.second; }
static int of_whole(struct pair volatile p) { return p.first; }
static int of_either(union either volatile e, double volatile d) { return e.number + (int)d; }
static int of_pointer(int *volatile p) { return *p; }
static int of_any(const char *volatile form, ...) { return form[0]; }
static int unread(int volatile x) { return 3; }

static jmp_buf place;
static int of_jump(int volatile x, int y)
{
    if (setjmp(place)) /* noted: _setjmp, which may come back more than once, can't be turned */
        return x;
    return y;
}

static int calls(int c)
{
    int number = c, second = c + 1;
    struct pair pair = { c, 2 }, whole = { c, 3 };
    union either either = { c };
    double real = c;
    int at = c, jump = c + 4, jumped = c + 5, idle = c + 6;
    const char *form = "x";
    int sum = of_number(number) + of_two(1, second, 2) + of_pair(pair) + of_whole(whole);
    sum += of_either(either, real) + of_pointer(&at) + of_any(form, c) + of_jump(jump, jumped);
    number = 2;         /* expect: assignment to 'number' is dead */
    return sum + unread(idle);
}

static int nested(int c)
{
    int local = c;
    int inner(int volatile x) { return x + local; }
    int given = c + 1;
    return inner(given);
}

static int through(int (*f)(int volatile), int c)
{
    int given = c * 2;
    return f(given);
}

static int again(int volatile x, int n)
{
    int next = n - 1, other = n + 1;
    return n < 1 ? x : again(next, n - 2) + again(other, n - 3);
}

int main(int c, char **v)
{
    return calls(c) + nested(c) + through(of_number, c) + again(c, c);
}

/* What gcc adds to C: cleanups, statement expressions, nested functions; and compound literals, arrays of any length, varargs. */
/* options: --whole */
#include <stdarg.h>
#include <alloca.h>

static int log_of;

static void leave(int *p)
{
    log_of = *p;
}

static int guarded(int n)
{
    int z __attribute__((cleanup(leave))) = n;
    int w = n;              /* expect: assignment to 'w' is dead */
    if (n > 3)
        return 1;           /* leave runs here too, and reads z */
    z = n + 1;
    w = 3;                  /* expect: assignment to 'w' is dead */
    return 2;
}

static int expressions(int n)
{
    int a = ({ int t = n * 2; t > 5 ? t : -t; });
    int *p = (int[]){ n, a };
    char *block = alloca(n);
    int any[n];
    any[0] = a;
    block[0] = 1;
    return p[0] + any[0] + block[0];
}

static int nested(int n)
{
    int shared = 3;
    int inner(int z) { return z + shared; }
    shared = n;
    return inner(n);
}

static int summed(int count, ...)
{
    va_list rest;
    int sum = 0, value;
    va_start(rest, count);
    while (count > 0) {
        value = va_arg(rest, int);
        sum = sum + value;
        count = count - 1;
    }
    va_end(rest);
    return sum + value;     /* expect: 'value' may be used before it is set */
}

int main(int argc, char **argv)
{
    return guarded(argc) + expressions(argc) + nested(argc) + summed(argc, 1, 2) + log_of;
}

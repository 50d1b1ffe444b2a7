/* Ends of the program: exit, abort, and a function that never comes back. */
/* options: --whole */
#include <stdlib.h>
#include <stdio.h>

static int code;

static void fatal(const char *why) __attribute__((noreturn));
static void fatal(const char *why)
{
    puts(why);
    exit(code);
    puts("never");          /* gcc itself leaves out what stands behind such a call: nothing is told */
}

static int need(int n)
{
    int r;
    if (n > 0)
        r = n;
    else if (n == 0)
        fatal("zero");
    else
        abort();
    return r;               /* the other two ways don't come here */
}

static int flag(int n)
{
    int ended = 0;
    if (n > 4) {
        ended = 1;          /* expect: assignment to 'ended' is dead */
        abort();
    }
    return ended;
}

/* gcc knows it by another name than the source does */
extern void vanish(int n) __asm__("gone_for_good") __attribute__((noreturn));

static int vanishes(int n)
{
    int ended = 0;
    if (n > 8) {
        ended = 1;          /* expect: assignment to 'ended' is dead */
        vanish(n);
    }
    return ended;
}

int main(int argc, char **argv)
{
    int gone = argc * 2;    /* expect: assignment to 'gone' is dead */
    code = flag(argc) + vanishes(argc); /* fatal reads it */
    gone = need(argc);
    if (gone > 5) {
        int last = gone;    /* expect: assignment to 'last' is dead */
        exit(gone);
    }
    return gone;
}

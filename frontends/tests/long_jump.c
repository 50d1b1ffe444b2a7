/* setjmp takes its function alone: that stands for unknown code. A long jump ends all calls up to it. */
/* options: --whole */
#include <setjmp.h>
int printf(const char *, ...);

static jmp_buf back;
static int seen, lost;

static int deep(int n)
{
    int gone = n * 2;       /* expect: assignment to 'gone' is dead */
    seen = 1;               /* some function of this file may read it behind the jump: line 20 does */
    longjmp(back, n);
}

static int again(int n)
{
    int local = n;          /* nothing is told in a function that is taken as unknown code */
    if (setjmp(back))       /* noted: 'again' is taken as unknown code */
        return seen;
    return deep(n);
}

int main(int argc, char **argv)
{
    int unread = 3;         /* expect: initial value of 'unread' is dead */
    lost = 4;               /* again may read it */
    unread = again(argc);   /* expect: assignment to 'unread' is dead */
    lost = 5;               /* again may also call main, and read it behind that */
    return argc;
}

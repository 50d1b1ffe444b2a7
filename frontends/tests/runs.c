/* What is only counted on and left to nobody in the end: a kind of its own. */
/* options: --whole --kinds dead-last */
#include <string.h>
static unsigned long put(char *to, unsigned long at, char what)
{
    to[at] = what;
    return at + 1;
}

static void build(char *to)
{
    unsigned long pos = 0, other;
    pos = put(to, pos, 'a');
    pos = put(to, pos, 'b');
    pos = put(to, pos, 'c');    /* expect: assignment to 'pos' is dead */
    other = put(to, 1, 'd');    /* made of no older value */
    other = put(to, 2, 'e');
}

static void write(char *to, int n)
{
    *to++ = n;
    *to++ = n + 1;              /* expect: assignment to 'to' is dead */
    n += 3;                     /* of no run */
}

int main(int argc, char **argv)
{
    char text[8];
    build(text);
    write(text, argc);
    return text[0];
}

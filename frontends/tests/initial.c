/* Plain initial values are a kind of their own, and parts are told as they are written. */
/* options: --whole */
#include <stddef.h>
int printf(const char *, ...);

struct inner { int deep; };
struct pair { int first, second; struct inner in; };

int main(int argc, char **argv)
{
    int zero = 0;           /* expect: initial value of 'zero' is dead */
    char *none = NULL;      /* expect: initial value of 'none' is dead */
    struct pair all = {0};  /* expect: initial value of 'all' is dead */
    int three = 3;          /* expect: initial value of 'three' is dead */
    int made = argc * 3;    /* expect: assignment to 'made' is dead */
    int later;
    int cells[4];
    int filled[3] = { 0, argc };    /* expect: assignment to 'filled' is dead */
    struct pair parts;
    later = 0;              /* expect: assignment to 'later' is dead */
    zero = argc;
    none = argv[0];
    three = argc;
    made = argc;
    later = argc;
    parts.in.deep = later;  /* expect: assignment to 'parts.in.deep' is dead */
    parts.first = 1;
    printf("%d", parts.first);
    parts.in.deep = 2;      /* expect: assignment to 'parts.in.deep' is dead */
    parts.second = 3;       /* expect: assignment to 'parts.second' is dead */
    cells[argc & 3] = 4;    /* expect: assignment to 'cells' is dead */
    cells[2] = 4;           /* expect: assignment to 'cells[2]' is dead */
    return printf("%d%s%d", zero, none, three + made);
}

/* A remark on a header is told only where it holds in each copy, with the files by themselves... */
/* files: other_headers.c */
#include "headers.h"

int first(int n)
{
    set_state(n);
    return pick(n) + state + helper_of_both(n);
}

int by_header(int n)
{
    int y;
    KEEP(n, y);             /* a macro of the header: other files may read what it sets */
    return n;
}

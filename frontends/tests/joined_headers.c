/* ...and with the files as one program. */
/* options: --whole */
/* files: other_headers.c */
#include "headers.h"

int second(int);

int main(int argc, char **argv)
{
    set_state(argc);
    return pick(argc) + state + helper_of_both(argc) + second(argc);
}

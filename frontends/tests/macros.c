/* Expressions in macros: those of these files' macros are told at the macro's name, those of the system's headers are not. */
#include <sys/select.h>

#define LOW(x) ((x) & 15)
#define BOTH(x) LOW(x) + \
    ((x) >> 4)

int is_set(int number, fd_set *set, fd_set *other)
{
    int first = FD_ISSET(number, set);
    return first + FD_ISSET(number, other);
}

int twice(int number)
{
    int first = BOTH(number);       /* here '& 15' and '>> 4' are evaluated for the first time */
    return first - BOTH(number);    /* expect: 'number & 15' is already computed */ /* expect: 'number >> 4' is already computed */
}

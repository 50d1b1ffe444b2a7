/* Conversions, floating numbers, complex numbers, vectors, functions of the standard headers. */
/* options: --whole */
#include <stdio.h>
#include <string.h>
#include <stdlib.h>
#include <complex.h>

typedef int four __attribute__((vector_size(16)));

static double mixed(int i, double d, float f)
{
    double r = i * d;       /* (double) i has no name, so nothing is told of it below */
    char c = i;
    long wide = i;
    r = r + i * d;
    r = r + d * f;
    r = r + d * 2.5;
    r = r + d * 2.5;        /* expect: 'd * 2.5' is already computed */
    return r + c + wide;
}

static double parts(double complex z, double x)
{
    double complex w;
    __real__ z = x;
    w = z * z;
    return __real__ w + __imag__ z;
}

static four lanes(four a, four b)
{
    a[0] = 1;
    a = a + b;
    return a;
}

static int text(const char *s)
{
    char copy[20];
    int length, found;
    strcpy(copy, s);        /* sets copy as far as a pointer can */
    length = strlen(copy);
    if (sscanf(copy, "%d", &found) == 1)
        length = length + found;
    return length;
}

int main(int argc, char **argv)
{
    four v = { 1, 2, 3, 4 };
    int unread;
    unread = abs(argc);     /* expect: assignment to 'unread' is dead */
    v = lanes(v, v);
    printf("%f %f %d", mixed(argc, 2.0, 3.0f), parts(1.0, 2.0), v[1]);
    return text(argc > 2 ? "two" : "other");
}

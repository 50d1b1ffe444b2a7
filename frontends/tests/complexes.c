/* A complex number of which gcc writes one half by reading the other. */
/* options: --whole */
static double both(double x)
{
    _Complex double z;
    __real__ z = x;
    __imag__ z = 2;
    return __real__ z + __imag__ z;
}

static double one(double x)
{
    _Complex double z;
    __imag__ z = x;
    return __imag__ z;
}

static double none(void)
{
    _Complex double z;
    return __real__ z;      /* expect: 'z' is used before it is set */
}

static double kept(double x)
{
    _Complex double z = x;
    __real__ z = x + 1;
    return __imag__ z;
}

static double unread(double x)
{
    _Complex double z;
    __real__ z = x;         /* expect: assignment to 'z' is dead */
    return x;
}

static double moved(double x)
{
    _Complex double z = x, other = x;
    double half = __imag__ z;
    z = other;              /* half is the older one */
    __real__ z = half;
    return __real__ z + __imag__ z;
}

int main(int c, char **v)
{
    return both(c) + one(c) + none() + kept(c) + unread(c) + moved(c);
}

/* A computed jump may lead to each label that has a name. */
/* options: --whole */
int printf(const char *, ...);

static int run(const char *code)
{
    static void *const to[] = { &&more, &&less, &&done };
    int value, last;
    int spare = 1;          /* expect: initial value of 'spare' is dead */
    goto *to[code[0] & 1];
more:
    value = value + 1;      /* expect: 'value' may be used before it is set */
    last = 1;
    code = code + 1;
    goto *to[code[0] & 1];
less:
    value = 0;
    last = 2;
    goto *to[code[1] & 1];
done:
    printf("%d", last);     /* expect: 'last' may be used before it is set */
    return value;
    value = 3;              /* expect: never reached */
    return value;
}

int main(int argc, char **argv)
{
    return run(argv[argc - 1]);
}

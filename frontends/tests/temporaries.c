/* options: --all --whole */
/* With --all, address arithmetic is an expression, temporaries are variables, and results are told of. */

char *later(char *p, unsigned long n)
{
    char *q = p + n;
    char *r = p + n;            /* expect: 'p + n' is already computed */
    return q < r ? q : r;
}

static int result_unread(int n)
{
    return n * 2;               /* expect: assignment to 'result_unread__value' is dead */
}

int main(void)
{
    char word[4];
    char *end = later(word, 2);
    result_unread(2);
    return end - word;          /* read by whoever started the program */
}

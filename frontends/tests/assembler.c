/* Assembler reads and writes its operands; what touches memory is unknown code. */
/* options: --whole */
int printf(const char *, ...);

static int counted, hidden;

int main(int argc, char **argv)
{
    int n = argc, out, kept, unset;
    int gone = argc * 2;    /* expect: assignment to 'gone' is dead */
    counted = 1;            /* no pointer leads to counted, so line 13 does not read it */ /* expect: assignment to 'counted' is dead */
    __asm__ ("nop" : "=r"(out) : "r"(n));   /* reads n, sets out */
    __asm__ volatile ("nop" ::: "memory");
    counted = 2;
    gone = out;             /* expect: assignment to 'gone' is dead */
    __asm__ ("nop" : "=r"(gone) : "r"(unset));  /* expect: 'unset' is used before it is set */
    __asm__ ("nop" : "+m"(kept) : "r"(gone));   /* expect: 'kept' is used before it is set */
    printf("%d %d", counted, kept);
    __asm__ goto ("nop" : : "r"(n) : : out);
    hidden = 3;             /* expect: assignment to 'hidden' is dead */
    return 1;
out:
    return out;
}

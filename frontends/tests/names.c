/* Variables of one name in nested blocks, and static functions and variables of one name in two files. */
/* options: --whole */
/* files: other_names.c */
int printf(const char *, ...);
int other(int);
int shared;

static int cell = 1;

static int helper(int proc)     /* a word of tacflow's language as a name */
{
    int x = proc;
    {
        int x = proc + 1;   /* expect: assignment to 'x' is dead */
    }
    {
        int x;
        x = x + 1;          /* expect: 'x' is used before it is set */
        cell = x;           /* expect: assignment to 'cell' is dead */
    }
    return x;
}

int a_name_of_more_than_sixty_four_bytes_must_be_shortened_without_a_clash_1(int n)
{
    return n + 1;
}

int a_name_of_more_than_sixty_four_bytes_must_be_shortened_without_a_clash_2(int n)
{
    return n + 2;
}

int main(int argc, char **argv)
{
    int r = a_name_of_more_than_sixty_four_bytes_must_be_shortened_without_a_clash_1(argc)
        + a_name_of_more_than_sixty_four_bytes_must_be_shortened_without_a_clash_2(argc);
    shared = 3;             /* read in the other file */
    return r + helper(argc) + other(argc);
}

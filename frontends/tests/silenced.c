/* What silences a remark: a cast to void, attributes, comments. */
/* options: --whole */
#define UNUSED_LOCAL __attribute__((unused))
int printf(const char *, ...);

static int state __attribute__((used));

static int __attribute__((unused)) spare_function(int n)
{
    return n;
}

static int not_called(int n)    /* expect: 'not_called' is never called */
{
    return n;
}

int main(int argc, char **argv)
{
    int cast = argc * 2;
    int marked __attribute__((unused)) = argc;
    UNUSED_LOCAL int by_macro = argc;
    int told = argc;        /* expect: assignment to 'told' is dead */
    int same_line = argc;   // tacflow: ignore dead
    /* tacflow: ignore */
    int line_above = argc;
    int other_kind = argc;  /* tacflow: ignore unset */ /* expect: assignment to 'other_kind' is dead */
    int tidy = argc;        // NOLINT
    int tidy_named = argc;  // NOLINT(clang-analyzer-deadcode.DeadStores, bugprone-x)
    int tidy_ours = argc;   // NOLINT(tacflow-dead)
    int tidy_other = argc;  // NOLINT(bugprone-x) /* expect: assignment to 'tidy_other' is dead */
    // NOLINTNEXTLINE
    int tidy_next = argc;
    // NOLINT
    int not_next = argc;    /* expect: assignment to 'not_next' is dead */
    int not_here = argc;    // NOLINTNEXTLINE /* expect: assignment to 'not_here' is dead */

    // cppcheck-suppress unreadVariable
    int check = argc;
    int check_line = argc;  // cppcheck-suppress unreadVariable
    // cppcheck-suppress [unusedFunction, unreadVariable]
    int check_list = argc;
    // cppcheck-suppress unusedFunction
    int check_other = argc; /* expect: assignment to 'check_other' is dead */
    static int kept;
    kept = argc;
    (void)((unsigned)kept);
    (void)cast;
    state = argc;
    return 0;
}

/* What stands in a section of its own, or is marked as used, is reached by what gcc does not see. */
/* options: --whole */
static int in_section __attribute__((section("mine")));
static int is_used __attribute__((used));
static int plain, set_early;

static void early(void)
{
    set_early = 7;          /* runs before main, which reads it */
}

static void (*const start)(void) __attribute__((section(".init_array"), used)) = early;

static void from_outside(void) __attribute__((used));
static void from_outside(void)
{
    in_section = plain;     /* plain: read here */
}

int main(int argc, char **argv)
{
    in_section = 1;
    is_used = 2;
    plain = 3;
    return set_early;
}

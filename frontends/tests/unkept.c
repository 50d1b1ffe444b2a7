/* What stands in a section runs at -O0 though nothing names it and it has no attribute `used`. */
/* options: --whole */
static int set_by_entry, set_early, set_deep, set_inside, set_apart, kept_by_use, set_never;

static void entry_code(void) { set_by_entry = 1; }
static void early(void) { set_early = 2; }
static void deep(void) { set_deep = 3; }
static void inside(void) { set_inside = 4; }
static inline void inlined(void) { kept_by_use = 5; }
static void never(void) { set_never = 6; } /* expect: 'never' is never called */

static void (*const entry)(void) __attribute__((section("ents"))) = entry_code;
static void (*const at_start)(void) __attribute__((section(".init_array"))) = early;
static struct { int n; void (*f)(void); } const table = { 1, deep };
static const void *const to_table __attribute__((section("ents"))) = &table;
static void (*const of_inline)(void) __attribute__((section("ents"))) = inlined;
static void apart(void) __attribute__((section("code")));
static void apart(void) { set_apart = 7; }

static int local(void)
{
    static void (*const in_function)(void) __attribute__((section("ents"))) = inside;
    return set_inside;
}

int main(int c, char **v)
{
    int plain = set_by_entry + set_deep + set_apart + kept_by_use + local();
    plain += set_early;     /* early has run */
    set_never = c;          /* expect: assignment to 'set_never' is dead */
    return plain;
}

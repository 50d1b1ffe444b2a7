"""What is known of functions of the C library: of all others everything is feared.

A function of these lists comes back, calls nothing of the program, and writes no variable of it by
name. It is told apart by how it treats the memory that pointers lead to.
"""

import re

UNTOUCHED = frozenset(
    """
abs labs llabs isalnum isalpha isblank iscntrl isdigit isgraph islower isprint ispunct isspace
isupper isxdigit tolower toupper acos asin atan atan2 ceil cos cosh exp exp2 fabs floor fmod hypot
log log10 log2 pow round sin sinh sqrt tan tanh trunc acosf asinf atanf atan2f ceilf cosf expf
fabsf floorf fmodf logf log10f powf roundf sinf sqrtf tanf truncf lround llround lrint llrint rint
nearbyint cbrt fmax fmin ldexp rand srand random srandom clock sleep usleep malloc calloc free
realloc getpid __errno_location __ctype_b_loc __ctype_tolower_loc __ctype_toupper_loc
__ctype_get_mb_cur_max
""".split()
)

READING = frozenset(
    """
strlen strnlen strcmp strncmp strcasecmp strncasecmp strcoll strchr strrchr strstr strpbrk strspn
strcspn memcmp memchr memrchr strdup strndup atoi atol atoll atof getenv perror strerror remove
rename unlink rmdir mkdir access
""".split()
)

WRITING = frozenset(
    """
memcpy memmove memset mempcpy strcpy strncpy stpcpy strcat strncat strtok strtok_r strsep bcopy
bzero sprintf snprintf vsprintf vsnprintf sscanf vsscanf strtol strtoul strtoll strtoull strtod
strtof strtold fopen freopen fdopen fclose fflush fputc putc putchar fputs puts fwrite feof ferror
clearerr fileno rewind fseek ftell ungetc fgetc getc getchar getline getdelim putchar_unlocked
printf fprintf vprintf vfprintf setvbuf setbuf tmpfile scanf fscanf fgets fread time gettimeofday
clock_gettime localtime gmtime mktime strftime ctime asctime difftime frexp modf read write open
close lseek stat fstat lstat creat isatty
""".split()
)

ENDING = frozenset(
    """
exit _exit _Exit quick_exit abort __assert_fail __builtin_unreachable __builtin_trap
__builtin_abort longjmp _longjmp siglongjmp __longjmp_chk __builtin_longjmp
__builtin_nonlocal_goto setcontext
""".split()
)

JUMPING = frozenset(
    """
setjmp _setjmp __sigsetjmp sigsetjmp __builtin_setjmp __builtin_setjmp_setup
__builtin_setjmp_receiver getcontext swapcontext makecontext vfork
""".split()
)

QUIET_BUILTINS = re.compile(
    r"""__builtin_(?:expect|constant_p|object_size|clz|ctz|ffs|popcount|parity|bswap\d+|alloca\w*
|stack_\w+
|dwarf_cfa|frame_address|return_address|prefetch|fabs\w*|inf\w*|nan\w*|huge_val\w*|isnan
|isinf\w*|isfinite|signbit\w*|classify_type
|fpclassify|copysign\w*|assume_aligned|expect_with_probability|has_attribute)(?:l|ll)?$""",
    re.VERBOSE,
)
MEMORY_BUILTINS = re.compile(
    r"__builtin_(?:va_\w+|init_trampoline|adjust_trampoline)$|__atomic_\w+$|__sync_\w+$"
)
INTERNAL = re.compile(r"\.(?:ADD|SUB|MUL)_OVERFLOW$|\.FALLTHROUGH$|\.(?:UBSAN|BUILTIN_EXPECT)\w*$")


def behaviour(name: str) -> str:
    """How a function that has no body here acts: 'untouched', 'reading', 'writing', 'ending',
    'jumping' or 'unknown'.

    An ending one does not come back to its caller: a jump out of it ends all calls up to a function
    that some jump leads to, of which nothing is known. A jumping one may come back more than once.
    """
    plain = name.removeprefix("__builtin_").removesuffix("_unlocked")
    if name in JUMPING:
        return "jumping"
    if name in ENDING or plain in ENDING:
        return "ending"
    if QUIET_BUILTINS.match(name) or INTERNAL.match(name) or plain in UNTOUCHED:
        return "untouched"
    if plain in READING:
        return "reading"
    if plain in WRITING or MEMORY_BUILTINS.match(name) or name == ".VA_ARG":
        return "writing"
    return "unknown"

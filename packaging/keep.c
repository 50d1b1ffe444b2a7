/* Where the program is started with no environment, as `rt try` starts it, it copies itself to KEPT. The launcher starts it with one. */
int open(const char *, int, ...);
long read(int, void *, unsigned long);
long write(int, const void *, unsigned long);
int close(int);

static char block[65536];

__attribute__((constructor)) static void keep(int count, char **words, char **environment)
{
    long taken;
    int from, to;
    if (count < 1 || environment[0])
        return;
    from = open(words[0], 0);
    to = open(KEPT, 01101, 0755); /* to be written, made anew */
    while (to >= 0 && (taken = read(from, block, sizeof block)) > 0)
        if (write(to, block, (unsigned long)taken) != taken)
            break;
    close(from);
    close(to);
}

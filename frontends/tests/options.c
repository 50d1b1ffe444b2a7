/* Options that have gcc write other code are left out: debugging, optimisation, sanitizers, coverage, OpenMP. */
/* options: --whole -g -O2 -fsanitize=address --coverage -fopenmp -flto -finstrument-functions -o out.o -MD -MF out.d -c -Werror -Wall */
int printf(const char *, ...);

int main(int argc, char **argv)
{
    int D = argc;           /* a name as gcc itself uses it */
    int gone = D * 2;       /* expect: assignment to 'gone' is dead */
    int sum = 0, i;
    char many[300] = "many";
    const int values[] = {
        1, 2, 3, 4, 5, 6, 7, 8, 9, 10, 11, 12, 13, 14, 15, 16, 17, 18, 19, 20, 21, 22, 23, 24, 25, 26, 27, 28, 29, 30, 31, 32, 33, 34,
        35, 36, 37, 38, 39, 40, 41, 42, 43, 44, 45, 46, 47, 48, 49, 50, 51, 52, 53, 54, 55, 56, 57, 58, 59, 60, 61, 62, 63, 64, 65, 66,
    };
    int copied[] = {
        1, 2, 3, 4, 5, 6, 7, 8, 9, 10, 11, 12, 13, 14, 15, 16, 17, 18, 19, 20, 21, 22, 23, 24, 25, 26, 27, 28, 29, 30, 31, 32, 33, 34,
        35, 36, 37, 38, 39, 40, 41, 42, 43, 44, 45, 46, 47, 48, 49, 50, 51, 52, 53, 54, 55, 56, 57, 58, 59, 60, 61, 62, 63, 64, 65, 66,
    };
    #pragma omp parallel for
    for (i = 0; i < 10; i++)
        sum += values[i] + copied[i];
    printf("%s", many);
    return sum + D;
}

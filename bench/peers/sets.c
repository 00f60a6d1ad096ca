/* What libfa takes for the questions that bench/sets.sh asks. Prints microseconds, and how often the
   answer is yes, as the program does.

       cc -O2 sets.c -lfa && ./a.out ROUNDS PATTERN.. */
#include <fa.h>
#include <stdio.h>
#include <stdlib.h>
#include <string.h>
#include <time.h>

static double microseconds(void)
{
    struct timespec now;
    clock_gettime(CLOCK_MONOTONIC, &now);
    return now.tv_sec * 1e6 + now.tv_nsec / 1e3;
}

static struct fa *set_of(const char *pattern)
{
    struct fa *set = NULL;
    if (fa_compile(pattern, strlen(pattern), &set) != 0) {
        fprintf(stderr, "%s is not read\n", pattern);
        exit(1);
    }
    fa_minimize(set);
    return set;
}

static int is_included(const char *first, const char *second)
{
    struct fa *a = set_of(first), *b = set_of(second);
    struct fa *more = fa_minus(a, b), *both = fa_intersect(a, b);
    char *text = NULL;
    size_t length = 0;
    int yes;

    fa_minimize(more);
    fa_minimize(both);
    fa_example(more, &text, &length);
    yes = fa_contains(a, b) == 1;
    free(text);
    fa_free(a);
    fa_free(b);
    fa_free(more);
    fa_free(both);
    return yes;
}

int main(int count, char **words)
{
    int rounds = count > 1 ? atoi(words[1]) : 0, yes = 0;
    double began = microseconds();

    for (int round = 0; round < rounds; round++) {
        yes = 0;
        for (int i = 2; i < count; i++)
            for (int j = 2; j < count; j++)
                yes += is_included(words[i], words[j]);
    }
    printf("%.0f %d\n", microseconds() - began, yes);
    return 0;
}

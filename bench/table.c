/* Measures rows of work in turn, many short rounds of each, and prints the best round of each as a table in Markdown. */
#include "table.h"

#include <stdio.h>
#include <stdlib.h>
#include <string.h>
#include <time.h>

enum { MOST = 16, TURNS = 2000, REPETITIONS = 600 };

/* Nanoseconds for one unit, in a round of about as many units as TURNS says. */
static double measured(void (*run)(void), int units)
{
    struct timespec a, b;
    int turns = (TURNS + units - 1) / units;
    clock_gettime(CLOCK_MONOTONIC, &a);
    for (int i = 0; i < turns; i++)
        run();
    clock_gettime(CLOCK_MONOTONIC, &b);
    return ((double)(b.tv_sec - a.tv_sec) * 1e9 + (double)(b.tv_nsec - a.tv_nsec)) / turns / units;
}

/* A figure, or a dash where there is none. */
static void print_figure(const char *form, double x)
{
    printf(" ");
    if (x > 0.0)
        printf(form, x);
    else
        printf("-");
    printf(" |");
}

static double ratio(double a, double b) { return b > 0.0 ? a / b : 0.0; }

void print_table(const struct row *rows, int count)
{
    static double best[MOST][3];
    for (int n = 0; n < REPETITIONS; n++)
        for (int i = 0; i < count; i++)
            for (int j = 0; j < 3; j++) {
                if (rows[i].run[j] == NULL)
                    continue;
                double t = measured(rows[i].run[j], rows[i].units);
                if (n == 0 || t < best[i][j])
                    best[i][j] = t;
            }
    printf("| ns | this house | nettle | plain C | house / nettle | house / plain C |\n");
    printf("|---|---|---|---|---|---|\n");
    for (int i = 0; i < count; i++) {
        printf("| %s |", rows[i].what);
        for (int j = 0; j < 3; j++)
            print_figure("%.1f", best[i][j]);
        print_figure("%.2f", ratio(best[i][0], best[i][1]));
        print_figure("%.2f", ratio(best[i][0], best[i][2]));
        printf("\n");
    }
}

void expect_same(const uint8_t *a, const uint8_t *b, size_t n)
{
    if (memcmp(a, b, n) != 0) {
        fprintf(stderr, "bench: the ciphers differ\n");
        exit(1);
    }
}

// The check of loaded rules in C: for each sender in how many rows each target falls, 32 threads. Reads rows "F T G H" and prints nanoseconds a check.
#include <stdint.h>
#include <stdio.h>
#include <string.h>
#include <time.h>

enum { N = 32, ROWS = 64, TIMES = 200000 };

struct rule { uint8_t from, to, first, last; };

static struct rule rows[ROWS];
static int len;

// 0 where each pair of different threads falls in one row exactly
static int misfit(const struct rule *r, int n, int k)
{
    for (int s = 0; s < n; s++) {
        uint8_t counts[N] = {0};
        for (int i = 0; i < k; i++)
            if (r[i].from <= s && s <= r[i].to)
                for (int t = r[i].first; t < n && t <= r[i].last; t++)
                    counts[t]++;
        for (int t = 0; t < n; t++)
            if (counts[t] != 1 && t != s)
                return 1;
    }
    return 0;
}

int main(void)
{
    unsigned a, b, c, d;
    while (len < ROWS && scanf("%u %u %u %u", &a, &b, &c, &d) == 4)
        rows[len++] = (struct rule){a, b, c, d};
    struct timespec start, end;
    int wrong = 0;
    clock_gettime(CLOCK_PROCESS_CPUTIME_ID, &start);
    for (int i = 0; i < TIMES; i++) {
        __asm__ volatile("" ::: "memory");
        wrong += misfit(rows, N, len);
    }
    clock_gettime(CLOCK_PROCESS_CPUTIME_ID, &end);
    double ns = (end.tv_sec - start.tv_sec) * 1e9 + (end.tv_nsec - start.tv_nsec);
    printf("%.0f%s\n", ns / TIMES, wrong ? " (they do not fit)" : "");
    return wrong != 0;
}

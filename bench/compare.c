// Two logs compared in C, by ranks as the call does it. Reads the console's lines `sent S T WORD ..` and `received T S WORD ..`, and prints the answer and nanoseconds a comparison.
#include <stdint.h>
#include <stdio.h>
#include <stdlib.h>
#include <string.h>
#include <time.h>

enum { MOST = 512, WORDS = 8, TIMES = 200 };

struct entry { uint8_t sender, target, count; uint32_t words[WORDS]; };
struct log { struct entry entries[MOST]; int len; };

static struct log sends, receives;

static int same_pair(const struct entry *a, const struct entry *b)
{
    return a->sender == b->sender && a->target == b->target;
}

// how many entries before place i are of its sender and target
static int rank(const struct log *log, int i)
{
    int count = 0;
    for (int k = 0; k < i; k++)
        count += same_pair(&log->entries[k], &log->entries[i]);
    return count;
}

// the place of the entry of that sender, target and rank, or the length
static int find(const struct log *log, const struct entry *own, int rank)
{
    for (int k = 0; k < log->len; k++)
        if (same_pair(&log->entries[k], own) && rank-- == 0)
            return k;
    return log->len;
}

// 0: they agree; i + 1: send i differs; -(j + 1): receive j was not sent
static int compare(const struct log *a, const struct log *b)
{
    for (int i = 0; i < a->len; i++) {
        const struct entry *e = &a->entries[i];
        int j = find(b, e, rank(a, i));
        if (j == b->len || e->count != b->entries[j].count || memcmp(e->words, b->entries[j].words, 4 * e->count) != 0)
            return i + 1;
    }
    for (int j = 0; j < b->len; j++)
        if (find(a, &b->entries[j], rank(b, j)) == a->len)
            return -(j + 1);
    return 0;
}

int main(void)
{
    char line[400], *at;
    while (fgets(line, sizeof line, stdin)) {
        int sent = line[0] == 's';
        struct log *log = sent ? &sends : &receives;
        if (log->len == MOST)
            return 2;
        struct entry *e = &log->entries[log->len++];
        at = strchr(line, ' ');
        uint8_t first = strtoul(at, &at, 10), second = strtoul(at, &at, 10);
        e->sender = sent ? first : second;
        e->target = sent ? second : first;
        while (*at == ' ' && e->count < WORDS)
            e->words[e->count++] = strtoul(at, &at, 10);
    }
    struct timespec start, end;
    int answer = 0;
    clock_gettime(CLOCK_PROCESS_CPUTIME_ID, &start);
    for (int i = 0; i < TIMES; i++) {
        __asm__ volatile("" ::: "memory");
        answer = compare(&sends, &receives);
    }
    clock_gettime(CLOCK_PROCESS_CPUTIME_ID, &end);
    printf("%d %.0f\n", answer, ((end.tv_sec - start.tv_sec) * 1e9 + (end.tv_nsec - start.tv_nsec)) / TIMES);
}

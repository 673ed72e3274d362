/* The counts of document 02, #105, in C: every list of L steps of four threads, the table copied before each choice of thread.
   -DT=4 or -DT=32: how many thread records the table has. "count L R" counts R times and prints each place with its count. */
#include "table.h"
#include <stdio.h>
#include <stdlib.h>

typedef struct {
    uint32_t n;
    Thread th[T];
} Few;

static void give_up(Few *tab, Thread *x, unsigned t, int code)
{
    leave_queue(&tab->th[x->target], t);
    x->recv = R_NONE;
    finish(x, code, NONE, 0);
    x->phase = RELEASE;
}

static void check(Few *tab, Thread *x, unsigned t)
{
    Thread *r = &tab->th[x->target];
    if (x->flags & F_MARK) {
        give_up(tab, x, t, SCANCEL);
    } else if (ready(r, t)) {
        x->done = 0;
        x->phase = COPY;
    } else if (x->left == 0) {
        give_up(tab, x, t, STIME);
    } else {
        x->phase = RELEASE;
    }
}

static void copy(Few *tab, Thread *x, unsigned t)
{
    Thread *r = &tab->th[x->target];
    if (x->done < x->nwords) {
        x->done++;
        return;
    }
    finish(r, DONE, t, x->nwords);
    leave_queue(r, t);
    if (x->recv != R_NONE) {
        x->flags &= (uint8_t) ~(F_SEND | F_POLL);
        x->left = TIMES[x->rcode];
    } else {
        finish(x, DONE, NONE, 0);
    }
    x->phase = RELEASE;
}

/* whom a look finds: of an open receive the first in the queue, of a closed one the partner if it sends here */
static unsigned found(Few *tab, const Thread *x, unsigned t)
{
    const Thread *p = &tab->th[x->partner];
    if (x->recv == R_OPEN)
        return x->qlen ? x->queue[0] : NONE;
    return (p->flags & F_SEND) && p->target == t ? x->partner : NONE;
}

static void look(Few *tab, Thread *x, unsigned t)
{
    unsigned s;
    if (!(x->flags & F_IPC)) {
        x->phase = IDLE;
        return;
    }
    if (x->flags & F_MARK) {
        finish(x, RCANCEL, NONE, 0);
        x->phase = IDLE;
        return;
    }
    s = found(tab, x, t);
    /* receive codes 1 to 14 are limits: once the time is over no sender counts */
    if (x->left == 0 && (s == NONE || (x->rcode >= 1 && x->rcode <= 14))) {
        finish(x, RTIME, NONE, 0);
        x->phase = IDLE;
    } else if (s != NONE) {
        Thread *r = &tab->th[s];
        if ((r->flags & F_POLL) && r->owner == NONE) {
            r->owner = t;
            x->woken = s;
            x->phase = WAKE;
        }
    }
}

static void step(Few *tab, unsigned t)
{
    Thread *x = &tab->th[t];
    if (x->owner != NONE)
        return;
    switch (x->phase) {
    case IDLE:
        break;
    case LOCK:
        if (tab->th[x->target].owner == NONE) {
            tab->th[x->target].owner = t;
            x->flags |= F_POLL;
            x->phase = CHECK;
        }
        break;
    case CHECK:
        check(tab, x, t);
        break;
    case COPY:
        copy(tab, x, t);
        break;
    case RELEASE:
        tab->th[x->target].owner = NONE;
        x->phase = x->flags & F_SEND ? SLEEP : x->flags & F_IPC ? LOOK : IDLE;
        break;
    case SLEEP:
        if (!(x->flags & F_POLL) || (x->flags & F_MARK) || x->left == 0)
            x->phase = LOCK;
        break;
    case LOOK:
        look(tab, x, t);
        break;
    case WAKE:
        tab->th[x->woken].flags &= (uint8_t)~F_POLL;
        x->phase = UNLOCK;
        break;
    case UNLOCK:
        tab->th[x->woken].owner = NONE;
        x->phase = LOOK;
        break;
    }
}

static uint32_t counts[4096];

static unsigned place(const Few *t)
{
    unsigned p = 0;
    for (unsigned i = t->n; i-- > 0;)
        p = 8 * p + (t->th[i].code >= 0 ? (unsigned)t->th[i].code : (unsigned)(1 - t->th[i].code));
    return p;
}

static void try_next(const Few *t, unsigned x, unsigned left);

static void try_step(const Few *t, unsigned x, unsigned left)
{
    Few copy = *t;
    step(&copy, x);
    try_next(&copy, 0, left - 1);
}

static void try_next(const Few *t, unsigned x, unsigned left)
{
    if (left == 0) {
        counts[place(t)]++;
        return;
    }
    if (t->n <= x)
        return;
    try_step(t, x, left);
    try_next(t, x + 1, left);
}

static void begin(Few *t, unsigned x, int target, unsigned nwords, unsigned scode, int recv, unsigned partner, unsigned rcode)
{
    Thread *h = &t->th[x];
    h->flags = F_IPC | (recv ? F_RECEIVING : 0);
    h->code = RUNNING;
    h->recv = recv;
    h->partner = partner;
    h->rcode = rcode;
    if (target < 0) {
        h->left = TIMES[rcode];
        h->phase = LOOK;
        return;
    }
    Thread *r = &t->th[target];
    h->has_send = 1;
    h->target = target;
    h->nwords = nwords;
    h->scode = scode;
    h->flags |= F_SEND;
    h->left = TIMES[scode];
    h->phase = LOCK;
    r->queue[r->qlen++] = x;
}

int main(int argc, char **argv)
{
    unsigned length = argc > 1 ? atoi(argv[1]) : 10, rounds = argc > 2 ? atoi(argv[2]) : 1;
    static Few t;
    t.n = 4;
    for (int i = 0; i < T; i++) {
        t.th[i].owner = NONE;
        t.th[i].code = NEVERBEGUN;
        t.th[i].source = NONE;
    }
    begin(&t, 0, 1, 1, 15, R_NONE, 0, 0);
    begin(&t, 1, -1, 0, 0, R_OPEN, 0, 15);
    begin(&t, 2, 1, 1, 0, R_NONE, 0, 0);
    begin(&t, 3, 1, 0, 15, R_CLOSED, 1, 0);
    for (unsigned k = 0; k < rounds; k++) {
        memset(counts, 0, sizeof counts);
        try_next(&t, 0, length);
    }
    for (int p = 0; p < 4096; p++)
        if (counts[p])
            printf("%d %u\n", p, counts[p]);
    return 0;
}

/* How long the test of soundness takes beside a plain pass over the same words: the goal is at most 1.5 times as long. Links libhumdelzi.a;
 * compile with -O3.
 *
 * The machines are made word by word, by the layout of docs/ABI.md. `sound names` only names them, one to a line. `sound WHICH N test` or
 * `sound WHICH N pass` only runs one of the two N times on one machine, for a tool that counts instructions (tests/instructions).
 */
#define _POSIX_C_SOURCE 200809L
#include "../../host/include/humdelzi.h"

#include <stdio.h>
#include <stdlib.h>
#include <string.h>
#include <time.h>

enum { STACK, FRAMES, CHAIN, SLOTS, SAVED_STACK, SAVED_FRAMES, READY, FINALIZE, SETUP, MACHINE, FUEL, SLICES };

typedef struct {
    uint64_t *words[SLICES];
    size_t length[SLICES];
} lent;

#define ALL(m)                                                                                                                         \
    m->words[0], m->length[0], m->words[1], m->length[1], m->words[2], m->length[2], m->words[3], m->length[3], m->words[4],          \
        m->length[4], m->words[5], m->length[5], m->words[6], m->length[6], m->words[7], m->length[7], m->words[8], m->length[8],     \
        m->words[9], m->length[9], m->words[10], m->length[10]

/* what a machine holds: functions alone, or everything full; the objects besides the sleepers; the queues; rows whose owner runs */
typedef struct {
    const char *name;
    uint64_t depth, stack, rows, slots, functions;
    enum { FRESH, COROUTINES, IN_TURN, AT_RANDOM } objects;
    enum { EMPTY, IN_ORDER, SHUFFLED } queues;
    uint64_t running;
} plan;

#define LARGEST 128, 1024, 64, 4096, 32
#define SMALL 16, 128, 8, 64, 4

static const plan PLANS[] = {
    {"largest: every slot a coroutine, empty queues", LARGEST, COROUTINES, EMPTY, 0},
    {"largest: every slot a coroutine, full queues in order", LARGEST, COROUTINES, IN_ORDER, 0},
    {"largest: every slot a coroutine, full queues shuffled", LARGEST, COROUTINES, SHUFFLED, 0},
    {"largest: the same, half of the rows' coroutines running", LARGEST, COROUTINES, SHUFFLED, 32},
    {"largest: the other kinds in turn", LARGEST, IN_TURN, SHUFFLED, 0},
    {"largest: all kinds at random", LARGEST, AT_RANDOM, SHUFFLED, 0},
    {"largest: fresh", LARGEST, FRESH, EMPTY, 0},
    {"small: every slot a coroutine, full queues shuffled", SMALL, COROUTINES, SHUFFLED, 0},
    {"small: the other kinds in turn", SMALL, IN_TURN, SHUFFLED, 0},
    {"small: fresh", SMALL, FRESH, EMPTY, 0},
};

static const double GOAL = 1.5;
enum { SAMPLES = 5000 };

static uint64_t any(void) {
    static uint64_t x = 88172645463325252u;
    x ^= x << 13, x ^= x >> 7, x ^= x << 17;
    return x;
}

static uint64_t any32(void) { return any() >> 32; }

static uint64_t reference(uint64_t slot) { return ((uint64_t)1 << 48) + slot; }

/* a frame over the one below it: continuations that name a register of it, each kind in turn */
static void frame(uint64_t *w, uint64_t i, uint64_t functions, uint64_t regs, uint64_t cont) {
    uint64_t plain = cont == 0;
    w[0] = i % functions, w[1] = any32(), w[2] = i * regs, w[3] = any();
    w[4] = plain ? 1 + i % 3 : cont % 6, w[5] = plain ? regs - 1 : 0;
}

static void object(uint64_t *w, const plan *p, uint64_t i) {
    w[1] = p->objects == AT_RANDOM ? 1 + any() % 6 : 1 + i % 5;
    switch (w[1]) {
    case 1: w[2] = i % p->functions; break;
    case 2: w[2] = any(); break;
    case 3: w[2] = reference(0), w[3] = i & 1; break;
    case 4: w[2] = reference(0), w[3] = 1, w[4] = any(); break;
    case 5: w[2] = 1 + i % 8, w[3] = any32(), w[4] = any32(), w[5] = any(); break;
    default: break;
    }
}

/* a coroutine, task and handed over: with a row, asleep in all of it or running; or finished */
static void coroutine(lent *m, const plan *p, uint64_t i, uint64_t regs) {
    uint64_t *w = m->words[SLOTS] + i * 20;
    w[1] = 6, w[3] = w[4] = w[5] = 1, w[6] = i, w[10] = p->stack, w[11] = p->depth, w[12] = regs - 1;
    for (int k = 13; k < 18; k++) w[k] = any();
    if (i >= p->rows) {
        w[2] = 4 + i % 2;
        return;
    }
    w[7] = i;
    if (i < p->running) {
        w[2] = 1;
        return;
    }
    w[2] = 2, w[8] = p->depth * regs, w[9] = p->depth;
    for (uint64_t k = 0; k < w[8]; k++) m->words[SAVED_STACK][i * p->stack + k] = any();
    for (uint64_t k = 0; k < p->depth; k++) frame(m->words[SAVED_FRAMES] + (i * p->depth + k) * 6, k, p->functions, regs, k == 0 ? 5 : 0);
}

/* every frame of the stack; those of running coroutines every second one */
static uint64_t tower(lent *m, const plan *p, uint64_t regs) {
    uint64_t active = 0;
    for (uint64_t k = 0; k < p->depth * regs; k++) m->words[STACK][k] = any();
    for (uint64_t i = 0; i < p->depth; i++) {
        int body = i % 2 == 1 && active < p->running;
        frame(m->words[FRAMES] + i * 6, i, p->functions, regs, i == 0 ? 6 : body ? 5 : 0);
        if (body) {
            uint64_t *w = m->words[CHAIN] + active * 6;
            w[0] = reference(active), w[1] = i, w[2] = active % 2, w[3] = regs - 1, w[5] = active % 2 ? any() : 0;
            active++;
        }
    }
    return active;
}

static uint64_t queue(lent *m, const plan *p, int which) {
    uint64_t n = 0, *q = m->words[which];
    for (uint64_t i = 0; i < p->slots; i++)
        if (m->words[SLOTS][i * 20 + 1] == 6) q[n++] = reference(i);
    for (uint64_t i = n; p->queues == SHUFFLED && i > 1; i--) {
        uint64_t j = any() % i, w = q[i - 1];
        q[i - 1] = q[j], q[j] = w;
    }
    return n;
}

static lent make(const plan *p) {
    lent m;
    size_t length[SLICES] = {p->stack, p->depth * 6, p->depth * 6, p->slots * 20, p->rows * p->stack, p->rows * p->depth * 6, p->slots, p->slots, 14 + p->functions * 35, 25, 4};
    for (int k = 0; k < SLICES; k++) {
        m.length[k] = length[k];
        m.words[k] = aligned_alloc(64, (length[k] + 7) / 8 * 64);
        memset(m.words[k], 0, length[k] * 8);
    }
    uint64_t regs = p->stack / p->depth;
    uint64_t numbers[14] = {p->depth, p->stack, p->rows, p->slots, UINT64_MAX, 100, 100, 100, 100, 100, 100, 1, 0, p->functions};
    memcpy(m.words[SETUP], numbers, sizeof numbers);
    for (uint64_t i = 0; i < p->functions; i++) {
        uint64_t *f = m.words[SETUP] + 14 + i * 35;
        f[0] = f[1] = regs, f[2] = 8;
        for (uint64_t h = 0; h < 8; h++) f[3 + h * 4] = h, f[4 + h * 4] = 100, f[5 + h * 4] = 50, f[6 + h * 4] = regs - 1;
    }
    uint64_t full = p->objects != FRESH, count = full ? p->slots : p->functions;
    uint64_t active = full ? tower(&m, p, regs) : 0;
    for (uint64_t i = 0; i < count; i++) {
        uint64_t *w = m.words[SLOTS] + i * 20;
        if (!full) w[1] = 1, w[2] = i;
        else if (i >= p->rows && p->objects != COROUTINES) object(w, p, i);
        if (full && (w[1] == 0 || w[1] == 6)) coroutine(&m, p, i, regs);
    }
    uint64_t ready = p->queues == EMPTY ? 0 : queue(&m, p, READY), finalize = p->queues == EMPTY ? 0 : queue(&m, p, FINALIZE);
    uint64_t machine[25] = {full ? p->depth * regs : 0, full ? p->depth : 0, active, count, ready, finalize, 0, 5, 7, 0, 0, 0, 0, p->depth, p->stack, p->rows, p->slots, UINT64_MAX, p->stack, 100, 100, 100, 100, 100, 100};
    memcpy(m.words[MACHINE], machine, sizeof machine);
    m.words[FUEL][0] = 12;
    return m;
}

/* The plain pass: every word read once, and joined to the others. */
static __attribute__((noinline)) uint64_t pass(const lent *m) {
    uint64_t all = 0;
    for (int k = 0; k < SLICES; k++)
        for (size_t i = 0; i < m->length[k]; i++) all |= m->words[k][i];
    return all;
}

static __attribute__((noinline)) uint64_t test(const lent *m) { return bvm_sound(ALL(m)); }

static double least(uint64_t (*f)(const lent *), const lent *m, int batch) {
    struct timespec a, b;
    volatile uint64_t sink = 0;
    clock_gettime(CLOCK_MONOTONIC, &a);
    for (int i = 0; i < batch; i++) sink = f(m);
    clock_gettime(CLOCK_MONOTONIC, &b);
    (void)sink;
    return ((b.tv_sec - a.tv_sec) * 1e6 + (b.tv_nsec - a.tv_nsec) / 1e3) / batch;
}

int main(int argc, char **argv) {
    /* the stack from a page on: where it begins else hangs on how long the environment is, and on that what memset takes */
    __attribute__((aligned(4096))) char page[4096];
    __asm__ volatile("" : : "r"(page) : "memory");
    if (argc == 2 && strcmp(argv[1], "names") == 0) {
        for (size_t k = 0; k < sizeof PLANS / sizeof *PLANS; k++) puts(PLANS[k].name);
        return 0;
    }
    if (argc == 4) {
        lent m = make(&PLANS[atoi(argv[1])]);
        least(argv[3][0] == 't' ? test : pass, &m, atoi(argv[2]));
        return 0;
    }
    puts("| machine | words | test, us | plain pass, us | ratio | at most 1.50 |\n|---|---:|---:|---:|---:|---|");
    for (size_t k = 0; k < sizeof PLANS / sizeof *PLANS; k++) {
        lent m = make(&PLANS[k]);
        size_t words = 0;
        for (int i = 0; i < SLICES; i++) words += m.length[i];
        if (test(&m) != 1) return fprintf(stderr, "not sound: %s\n", PLANS[k].name), 1;
        double t = 1e9, p = 1e9;
        for (int i = 0; i < SAMPLES; i++) {
            double a = least(test, &m, words < 10000 ? 100 : 1), b = least(pass, &m, words < 10000 ? 100 : 1);
            t = a < t ? a : t, p = b < p ? b : p;
        }
        /* as it is printed, by hundredths */
        printf("| %s | %zu | %.2f | %.2f | %.2f | %s |\n", PLANS[k].name, words, t, p, t / p, t / p < GOAL + 0.005 ? "met" : "missed");
    }
    return 0;
}

/* Asks about lines of classes in one process: see bench/hierarchy. */
#include <stdbool.h>
#include <stddef.h>
#include <stdint.h>
#include <stdio.h>
#include <stdlib.h>
#include <time.h>

/* The memory that the library asks for, in bytes: what it holds, and the most that it held at once. */
typedef struct { bool ok; void *p; } Tried;

static size_t held, most, marks[2];

/* A request of this size marks a moment: of the last two marks the bytes that were held are kept. */
enum { MARK = 12345 };

/* In front of what is handed out stands how much was asked for. */
enum { HEAD = 16 };

static Tried hand(char *p, size_t size) {
    if (p == NULL) return (Tried){false, NULL};
    *(size_t *)p = size;
    held += size;
    most = held > most ? held : most;
    return (Tried){true, p + HEAD};
}

static char *taken_back(void *p) {
    char *whole = (char *)p - HEAD;
    held -= *(size_t *)whole;
    return whole;
}

Tried rattle_alloc(size_t size, size_t align) {
    (void)align;
    if (size == MARK) marks[0] = marks[1], marks[1] = held;
    return hand(malloc(HEAD + size), size);
}

Tried rattle_realloc(void *old, size_t kept, size_t size, size_t align) {
    (void)kept, (void)align;
    return hand(realloc(taken_back(old), HEAD + size), size);
}

void rattle_dealloc(void *p) { free(taken_back(p)); }

uint32_t in_process_rows(uint16_t depth, uint32_t rounds);
uint32_t in_process_flat(uint16_t count, uint32_t rounds);
uint32_t in_process_chains(uint16_t depth, uint32_t rounds);

static double seconds(uint32_t (*line)(uint16_t, uint32_t), uint16_t depth, uint32_t rounds) {
    struct timespec a, b;
    clock_gettime(CLOCK_MONOTONIC, &a);
    line(depth, rounds);
    clock_gettime(CLOCK_MONOTONIC, &b);
    return (b.tv_sec - a.tv_sec) + (b.tv_nsec - a.tv_nsec) / 1e9;
}

/* The least of some runs. */
static double least(uint32_t (*line)(uint16_t, uint32_t), uint16_t depth, uint32_t rounds) {
    double best = seconds(line, depth, rounds);
    for (int run = 0; run < 4; run++) {
        double again = seconds(line, depth, rounds);
        best = again < best ? again : best;
    }
    return best;
}

static void tell(const char *name, uint32_t (*line)(uint16_t, uint32_t), uint16_t depth, uint32_t rounds) {
    most = marks[0] = marks[1] = 0;
    double built = least(line, depth, 0);
    double classes = depth + 1.0, kept = marks[1] - marks[0], memory = most;
    double asked = least(line, depth, rounds) - built;
    printf("classes %5u  %-8s  made in %8.3f ms, %4.0f bytes a class at most with the list", depth + 1, name, built * 1e3, memory / classes);
    if (kept > 0) printf(", %5.1f kept beyond it", kept / classes);
    printf("  %12.1f ns a question\n", asked / rounds * 1e9);
}

int main(void) {
    const uint16_t depths[] = {1, 10, 1000, 60000};
    for (size_t i = 0; i < sizeof depths / sizeof *depths; i++) {
        tell("rows", in_process_rows, depths[i], 1 << 20);
        tell("chains", in_process_chains, depths[i], depths[i] < 1000 ? 1 << 20 : depths[i] < 60000 ? 1 << 12 : 1 << 6);
    }
    const uint16_t counts[] = {1153, 9217, 36865, 65534};
    for (size_t i = 0; i < sizeof counts / sizeof *counts; i++) tell("flat", in_process_flat, counts[i], 1 << 20);
    return 0;
}

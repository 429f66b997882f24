/* Calls the verifier's steps over all class files that are handed in, in one process: see bench/in_process. */
#include <stdbool.h>
#include <stddef.h>
#include <stdint.h>
#include <stdio.h>
#include <stdlib.h>
#include <time.h>

/* What the library takes memory by. */
typedef struct { bool ok; void *p; } Tried;

Tried rattle_alloc(size_t size, size_t align) {
    (void)align;
    void *p = malloc(size ? size : 1);
    return (Tried){p != NULL, p};
}

Tried rattle_realloc(void *old, size_t kept, size_t size, size_t align) {
    (void)kept, (void)align;
    void *p = realloc(old, size ? size : 1);
    return (Tried){p != NULL, p};
}

void rattle_dealloc(void *p) { free(p); }

typedef struct { uint64_t verified, no_code, not_supported, refused; } Verdicts;

uint32_t in_process_decode(const uint8_t *bytes, size_t length, const uint32_t *ends, size_t count);
uint32_t in_process_form(const uint8_t *bytes, size_t length, const uint32_t *ends, size_t count);
uint64_t in_process_code(const uint8_t *bytes, size_t length, const uint32_t *ends, size_t count);
uint32_t in_process_hierarchy(const uint8_t *bytes, size_t length, const uint32_t *ends, size_t count);
void in_process_verify(const uint8_t *bytes, size_t length, const uint32_t *ends, size_t count, Verdicts *verdicts);

static double now(void) {
    struct timespec t;
    clock_gettime(CLOCK_MONOTONIC, &t);
    return t.tv_sec + t.tv_nsec / 1e9;
}

/* The files of a list of names on standard input, one after the other. */
int main(void) {
    char name[4096];
    size_t length = 0, room = 1 << 24, count = 0, places = 1 << 16;
    uint8_t *bytes = malloc(room);
    uint32_t *ends = malloc(places * sizeof *ends);
    while (fgets(name, sizeof name, stdin)) {
        for (char *end = name; *end; end++)
            if (*end == '\n') *end = 0;
        FILE *file = fopen(name, "rb");
        if (!file) continue;
        for (;;) {
            if (length == room) bytes = realloc(bytes, room *= 2);
            size_t more = fread(bytes + length, 1, room - length, file);
            if (!more) break;
            length += more;
        }
        fclose(file);
        if (count == places) ends = realloc(ends, (places *= 2) * sizeof *ends);
        ends[count++] = (uint32_t)length;
    }
    double t[6];
    t[0] = now();
    uint32_t decoded = in_process_decode(bytes, length, ends, count);
    t[1] = now();
    uint32_t formed = in_process_form(bytes, length, ends, count);
    t[2] = now();
    uint64_t instructions = in_process_code(bytes, length, ends, count);
    t[3] = now();
    uint32_t listed = in_process_hierarchy(bytes, length, ends, count);
    t[4] = now();
    Verdicts verdicts = {0, 0, 0, 0};
    in_process_verify(bytes, length, ends, count, &verdicts);
    t[5] = now();
    printf("%zu %zu %u %u %u\n", count, length, decoded, formed, listed);
    printf("%llu %llu %llu %llu %llu\n", (unsigned long long)instructions, (unsigned long long)verdicts.verified,
           (unsigned long long)verdicts.no_code, (unsigned long long)verdicts.not_supported, (unsigned long long)verdicts.refused);
    printf("%f %f %f %f %f\n", t[1] - t[0], t[2] - t[1], t[3] - t[2], t[4] - t[3], t[5] - t[4]);
    return 0;
}

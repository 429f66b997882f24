/* Calls libclassck about a class and known ones, so many times:  library TIMES CLASS KNOWN..  Prints the microseconds of a call, the least of all. */
#include <classck.h>
#include <stdio.h>
#include <stdlib.h>
#include <time.h>

static double now(void) {
    struct timespec t;
    clock_gettime(CLOCK_MONOTONIC, &t);
    return t.tv_sec * 1e6 + t.tv_nsec / 1e3;
}

int main(int argc, char **argv) {
    static uint8_t bytes[1 << 24], text[1 << 20];
    static uint32_t ends[1 << 10];
    size_t length = 0;
    for (int i = 2; i < argc; i++) {
        FILE *file = fopen(argv[i], "rb");
        if (!file) return 2;
        length += fread(bytes + length, 1, sizeof bytes - length, file);
        fclose(file);
        ends[i - 2] = length;
    }
    classck_request request = {.command = CLASSCK_VERIFY, .classes = 1, .seed = 1};
    classck_outcome outcome;
    double least = 1e9;
    for (long i = atol(argv[1]); i > 0; i--) {
        double start = now();
        classck_answer(&request, bytes, length, ends, argc - 2, text, sizeof text, &outcome);
        double took = now() - start;
        least = took < least ? took : least;
    }
    printf("status %u, %zu bytes of text, %.1f us a call\n", outcome.status, outcome.needed, least);
    return 0;
}

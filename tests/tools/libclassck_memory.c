/* Calls libclassck about files, once for each of its allocations with that one failing, and once with none that does:
 *
 *   libclassck_memory COMMAND OPTIONS CLASSES FILE..
 *
 * Prints how many allocations there are, and how many calls were wrong: that gave neither the whole answer nor want of memory, wrote into the room
 * without an answer, or kept memory. It is linked with --wrap for malloc, realloc and free. */
#include <classck.h>
#include <stdio.h>
#include <stdlib.h>
#include <string.h>

enum { ROOM = 1 << 16, UNTOUCHED = 0xa5 };

void *__real_malloc(size_t size);
void *__real_realloc(void *old, size_t size);
void __real_free(void *block);

static long fail_at, count, blocks;

void *__wrap_malloc(size_t size) {
    if (++count == fail_at) return NULL;
    blocks++;
    return __real_malloc(size);
}

void *__wrap_realloc(void *old, size_t size) {
    if (++count == fail_at) return NULL;
    blocks += old == NULL;
    return __real_realloc(old, size);
}

void __wrap_free(void *block) {
    blocks -= block != NULL;
    __real_free(block);
}

int main(int argc, char **argv) {
    static uint8_t bytes[1 << 20], whole[ROOM], text[ROOM], untouched[ROOM];
    static uint32_t ends[100];
    size_t length = 0;
    classck_request request = {atoi(argv[1]), atoi(argv[2]), atoi(argv[3]), 1};
    classck_outcome expected, outcome;
    for (int i = 4; i < argc; i++) {
        FILE *file = fopen(argv[i], "rb");
        if (!file) return 2;
        length += fread(bytes + length, 1, sizeof bytes - length, file);
        fclose(file);
        ends[i - 4] = length;
    }
    memset(untouched, UNTOUCHED, ROOM);
    memset(whole, UNTOUCHED, ROOM);
    classck_answer(&request, bytes, length, ends, argc - 4, whole, ROOM, &expected);
    long wrong = blocks != 0 || expected.status > CLASSCK_REFUSED;
    for (fail_at = 1;; fail_at++) {
        count = 0;
        memset(text, UNTOUCHED, ROOM);
        classck_answer(&request, bytes, length, ends, argc - 4, text, ROOM, &outcome);
        int right = outcome.status == expected.status && outcome.needed == expected.needed && !memcmp(text, whole, ROOM);
        int none = outcome.status == CLASSCK_NO_MEMORY && outcome.needed == 0 && !memcmp(text, untouched, ROOM);
        wrong += blocks != 0 || !(right || (none && count >= fail_at));
        if (count < fail_at) break;
    }
    printf("%ld allocations, %ld wrong answers\n", fail_at - 1, wrong);
    return wrong != 0;
}

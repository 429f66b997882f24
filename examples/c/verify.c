/* Verifies a class file among known ones:  cc verify.c $(pkg-config --cflags --libs classck) -o verify;  ./verify CLASS KNOWN.. */
#include <classck.h>
#include <stdio.h>
#include <stdlib.h>
#include <sys/random.h>

int main(int argc, char **argv) {
    static uint8_t bytes[1 << 26];
    size_t length = 0, room = 1 << 16;
    uint32_t *ends = calloc(argc, sizeof *ends);
    for (int i = 1; i < argc; i++) {
        FILE *file = fopen(argv[i], "rb");
        if (!ends || !file || (length += fread(bytes + length, 1, sizeof bytes - length, file)) == sizeof bytes || ferror(file)) {
            fprintf(stderr, "%s cannot be read, or the files are too long\n", argv[i]);
            return 2;
        }
        fclose(file);
        ends[i - 1] = length;
    }
    classck_outcome outcome;
    classck_request request = {.command = CLASSCK_VERIFY, .classes = 1};
    if (getrandom(&request.seed, sizeof request.seed, 0) < 0)
        return 2;
    for (uint8_t *text = malloc(room); text; text = realloc(text, room)) {
        classck_answer(&request, bytes, length, ends, argc - 1, text, room, &outcome);
        if (outcome.needed <= room) {
            fwrite(text, 1, outcome.needed, stdout);
            return outcome.status;
        }
        room = outcome.needed;
    }
    return CLASSCK_NO_MEMORY;
}

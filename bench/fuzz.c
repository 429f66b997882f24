/* Calls libclassck with damaged class files, random bytes, wrong ends and wrong requests, for so many seconds:
 *
 *   fuzz SECONDS SEED FILE..
 *
 * Each block has the size that the call is told, so that AddressSanitizer sees what lies outside. Each answer is asked for twice, with another seed of
 * hashes and another room, and has to be the same. Prints how many calls there were, and of each status how many. */
#include <classck.h>
#include <stdio.h>
#include <stdlib.h>
#include <string.h>
#include <time.h>

enum { MOST = 1 << 16, SAMPLES = 1 << 13, FILES = 6 };

typedef struct { uint8_t *bytes; size_t length; } File;

static File samples[SAMPLES];
static size_t sample_count;
static uint64_t state;

static uint64_t draw(uint64_t below) {
    state ^= state << 13, state ^= state >> 7, state ^= state << 17;
    return below ? (state * 0x2545F4914F6CDD1DU >> 11) % below : 0;
}

/* A copy of just so many bytes. */
static void *exactly(const void *bytes, size_t length) {
    void *block = malloc(length);
    if (length) memcpy(block, bytes, length);
    return block;
}

static void read_sample(const char *name) {
    static uint8_t bytes[MOST];
    FILE *file = fopen(name, "rb");
    if (!file || sample_count == SAMPLES) exit(2);
    size_t length = fread(bytes, 1, MOST, file);
    samples[sample_count++] = (File){exactly(bytes, length), length};
    fclose(file);
}

/* Changes a few bytes, or cuts the file, or takes out or doubles a piece. */
static size_t damage(uint8_t *bytes, size_t length) {
    for (uint64_t times = draw(4); times && length; times--) {
        size_t at = draw(length), size = draw(length - at < 64 ? length - at + 1 : 64);
        switch (draw(6)) {
        case 0: bytes[at] = draw(256); break;
        case 1: bytes[at] ^= 1 << draw(8); break;
        case 2: bytes[at] = (uint8_t[]){0, 1, 0x7f, 0x80, 0xff}[draw(5)]; break;
        case 3: length = draw(3) ? length : at; break;
        case 4: memmove(bytes + at, bytes + at + size, length - at - size), length -= size; break;
        default:
            if (length + size > MOST) break;
            memmove(bytes + at + size, bytes + at, length - at), length += size;
        }
    }
    return length;
}

static size_t put_file(uint8_t *bytes) {
    if (draw(20) == 0) {
        size_t length = draw(200);
        for (size_t i = 0; i < length; i++) bytes[i] = draw(256);
        return length;
    }
    File it = samples[draw(sample_count)];
    memcpy(bytes, it.bytes, it.length);
    return draw(2) ? damage(bytes, it.length) : it.length;
}

/* Calls once and returns the text, as far as it fits into the room. */
static uint8_t *call(classck_request request, const uint8_t *bytes, size_t length, const uint32_t *ends, size_t count, size_t room, classck_outcome *outcome) {
    classck_request *asked = exactly(&request, sizeof request);
    classck_outcome *told = malloc(sizeof *told);
    uint8_t *copy = exactly(bytes, length), *text = malloc(room);
    uint32_t *places = exactly(ends, count * sizeof *ends);
    memset(text, 0xa5, room);
    classck_answer(asked, copy, length, places, count, text, room, told);
    *outcome = *told;
    free(asked), free(told), free(copy), free(places);
    return text;
}

static void fail(const char *why) {
    fprintf(stderr, "fuzz: %s\n", why);
    abort();
}

/* A request about so many files: one that is answered, mostly. */
static classck_request draw_request(size_t count) {
    static const uint32_t options[] = {0, 1, 0, 3, 3, 2, 2};
    classck_request it = {.command = 1 + draw(6), .seed = state};
    if (it.command <= CLASSCK_SHOW && count > 1) it.command += 2;
    it.options = draw(4) & options[it.command];
    it.classes = it.command == CLASSCK_PLAY ? count : it.command == CLASSCK_VERIFY_EACH ? 1 + draw(count) : 1;
    if (draw(30) == 0) it.command = draw(9);
    if (draw(30) == 0) it.options = draw(9);
    if (draw(30) == 0) it.classes = draw(FILES + 2);
    return it;
}

/* Draws a call and makes it twice. The first sample, which is to be java/lang/Object, is mostly the last of the files, of which there are
 * few, since those of one name are refused. */
static uint32_t one(uint8_t *bytes) {
    uint32_t ends[FILES];
    size_t length = 0, count = draw(30) ? 1 + draw(draw(4) ? 2 : FILES) : 0;
    for (size_t i = 0; i < count; i++) {
        int is_last = i && i + 1 == count && draw(8);
        if (is_last) memcpy(bytes + length, samples[0].bytes, samples[0].length);
        ends[i] = length += is_last ? samples[0].length : put_file(bytes + length);
    }
    classck_request request = draw_request(count);
    if (count && draw(30) == 0) ends[draw(count)] += draw(2) ? draw(100) : -draw(100);
    size_t room = draw(3) ? draw(4096) : draw(64), other = draw(4096);
    classck_outcome first, second;
    uint8_t *text = call(request, bytes, length, ends, count, room, &first);
    request.seed = ~request.seed;
    uint8_t *again = call(request, bytes, length, ends, count, other, &second);
    if (first.status != second.status || first.needed != second.needed) fail("two answers");
    if (first.status > CLASSCK_NO_CALL || (first.status == CLASSCK_NO_CALL && first.needed)) fail("a status");
    size_t both = room < other ? room : other;
    if (memcmp(text, again, both < first.needed ? both : first.needed)) fail("two texts");
    for (size_t i = first.needed; i < room; i++)
        if (text[i] != 0xa5) fail("a byte behind the text");
    free(text), free(again);
    return first.status;
}

int main(int argc, char **argv) {
    uint64_t calls[4] = {0}, all = 0;
    if (argc < 4) return 2;
    state = strtoull(argv[2], NULL, 0) * 2 + 1;
    for (int i = 3; i < argc; i++) read_sample(argv[i]);
    uint8_t *bytes = malloc((size_t)MOST * FILES);
    for (time_t end = time(NULL) + atol(argv[1]); time(NULL) < end;)
        for (int i = 0; i < 100; i++) calls[one(bytes)] += 2, all += 2;
    printf("%llu calls: %llu with status 0, %llu with 1, %llu with 2\n", (unsigned long long)all, (unsigned long long)calls[0],
           (unsigned long long)calls[1], (unsigned long long)calls[2]);
    free(bytes);
    for (size_t i = 0; i < sample_count; i++) free(samples[i].bytes);
    return 0;
}

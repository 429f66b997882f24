/* libclassck: verifies Java class files, as the program classck does.
 *
 * The one call is proved to give the text and the status that are defined for a command and its files, the same as
 * the program prints. It keeps nothing between calls, starts no thread and writes to no global variable, so any
 * number of threads may call it at once. It takes memory by malloc, realloc and free, and gives all of it back.
 */
#ifndef CLASSCK_H
#define CLASSCK_H

#include <stddef.h>
#include <stdint.h>

#ifdef __cplusplus
extern "C" {
#endif

/* The commands. */
enum {
    CLASSCK_CHECK = 1,      /* whether a file is a class file that is well formed */
    CLASSCK_SHOW = 2,       /* what a class file holds */
    CLASSCK_VERIFY = 3,     /* the verdicts on the methods of a class, among known classes */
    CLASSCK_EXPLAIN = 4,    /* why methods of a class are refused */
    CLASSCK_PLAY = 5,       /* whether classes may run together */
    CLASSCK_VERIFY_EACH = 6 /* the verdicts on the methods of each of many classes, among one another and known ones */
};

/* The options, to be added. */
enum {
    CLASSCK_JSON = 1,     /* of all but show: objects of JSON, each on a line, in place of words */
    CLASSCK_DYNAMIC = 2,  /* of verify, explain, play and verify-each: judge invokedynamic and dynamic constants too */
    CLASSCK_RELEASE = 256 /* times N, of 7 to 27, and without CLASSCK_DYNAMIC: as Java SE N does */
};

/* The statuses. */
enum {
    CLASSCK_OK = 0,       /* every file and method was accepted */
    CLASSCK_REFUSED = 1,  /* something was refused: the text says what, with its number */
    CLASSCK_NO_CALL = 2,  /* the command has not these options, may not judge so many files, or the ends are wrong */
    CLASSCK_NO_MEMORY = 3 /* memory ran out, or the text has over 64 MiB more than the room */
};

typedef struct {
    uint32_t command; /* CLASSCK_CHECK to CLASSCK_VERIFY_EACH */
    uint32_t options; /* a sum of options that the command has, or 0 */
    size_t classes;   /* how many files are judged, from the first on: 1; all of play; 1 and more of verify-each. The
                         others are known classes, which check, show and play have none of. */
    uint64_t seed;    /* any number; it changes no answer. Draw it at random where files may be hostile: who cannot
                         know it cannot make the look-up of names slow. */
} classck_request;

typedef struct {
    uint32_t status; /* CLASSCK_OK to CLASSCK_NO_MEMORY */
    size_t needed;   /* how many bytes the text has, whether or not they fit; 0 where there is no answer */
} classck_outcome;

/* Answers a request about files.
 *
 * bytes, length  the files, one after the other
 * ends, count    for each file the offset in bytes at which it ends. No end is less than the one before it, and the
 *                last one is length. There is at least one file.
 * text, room     where the text goes, and how many bytes there are for it. A text that is longer is cut off there, and
 *                outcome->needed tells how long it is. What lies after a shorter text stays as it was, as does all of
 *                it where there is no answer. The text is ASCII, and no zero is put after it.
 * outcome        how the call ended
 *
 * No pointer may be null, also where there are no bytes or no room; text and outcome may not overlap with the others.
 * Time and memory are in proportion to length, but for the kinds of files that docs/PERFORMANCE.md names. A text may be
 * many thousand times as long as a file that was made for that: 4 GB for 0.26 MB. Time and memory are also in
 * proportion to the text, but to no more of it than 64 MiB beyond the room.
 */
void classck_answer(const classck_request *request, const uint8_t *bytes, size_t length, const uint32_t *ends,
                    size_t count, uint8_t *text, size_t room, classck_outcome *outcome);

/* The version of the program that gives the same answers, such as "0.9". */
extern const char classck_version[];

#ifdef __cplusplus
}
#endif

#endif

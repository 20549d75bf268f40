/* What the two C programs share: the samples' records, the answers that they expect, and both checks.
 *
 * PROGRAM is the name of the program that includes this file, for its messages; it is defined before.
 */
#ifndef SAMPLES_H
#define SAMPLES_H

#include "grid.h"

#include <stdio.h>
#include <stdlib.h>
#include <string.h>

enum {
    MOST = 256,   /* room for any of the samples */
    AROUND = 17,  /* bytes in front of the lent buffer or plan (so that it is not aligned) and behind it, and rows around
                     the lent list; no call may change them */
    FILLED = 0xa5 /* what each byte of the buffer, of the list and around them is before a call, and around the plan */
};

typedef struct Record {
    uint8_t front; /* so that the bytes are not aligned */
    uint8_t bytes[MOST];
    size_t length;
} Record;

static int done = 0;

static inline void fail(const char *what, const char *how)
{
    fprintf(stderr, PROGRAM ": %s: %s\n", what, how);
    exit(1);
}

static inline Record record(const char *folder, const char *name)
{
    Record read = {0};
    char path[1024];
    FILE *file;
    int length = snprintf(path, sizeof path, "%s/%s", folder, name);

    if (length < 0 || (size_t)length >= sizeof path) {
        fail(name, "the path is too long");
    }
    file = fopen(path, "rb");
    if (file == NULL) {
        fail(path, "it cannot be opened");
    }
    read.length = fread(read.bytes, 1, MOST, file);
    if (ferror(file) || read.length == 0 || read.length == MOST) {
        fail(path, "it cannot be read whole");
    }
    fclose(file);
    return read;
}

static inline GridAnswer accepted(uint32_t usage, uint32_t capacity, uint32_t makespan, uint32_t length)
{
    GridAnswer answer = {.number = 0, .first = usage, .second = capacity, .third = makespan, .length = length};
    return answer;
}

static inline GridAnswer refused(uint32_t number, uint32_t a, uint32_t b)
{
    GridAnswer answer = {.number = number, .first = a, .second = b, .third = 0, .length = 0};
    return answer;
}

static inline void expect(const char *what, GridAnswer answer, GridAnswer expected)
{
    if (answer.number != expected.number || answer.first != expected.first || answer.second != expected.second
        || answer.third != expected.third || answer.length != expected.length) {
        fprintf(stderr, PROGRAM ": %s: expected %u %u %u %u %u\n", what, (unsigned)expected.number,
                (unsigned)expected.first, (unsigned)expected.second, (unsigned)expected.third,
                (unsigned)expected.length);
        fprintf(stderr, PROGRAM ": %s: answered %u %u %u %u %u\n", what, (unsigned)answer.number, (unsigned)answer.first,
                (unsigned)answer.second, (unsigned)answer.third, (unsigned)answer.length);
        exit(1);
    }
    done++;
}

static inline void check(const char *what, const Record *model, const Record *plan, GridAnswer plain, GridAnswer strict)
{
    expect(what, grid_check_plain(model->bytes, model->length, plan->bytes, plan->length), plain);
    expect(what, grid_check_strict(model->bytes, model->length, plan->bytes, plan->length), strict);
}

/* The folder that the program is given, and nothing else. */
static inline const char *folder_of(int count, char **words)
{
    if (count != 2) {
        fprintf(stderr, "usage: " PROGRAM " FOLDER\n");
        exit(2);
    }
    return words[1];
}

#endif

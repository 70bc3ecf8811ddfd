/*
 * What the examples share: whether the archive goes with the header, the packet that comes in, a refusal in words, and how they end.
 * They end with DONE; with REFUSED where something is refused; with FAILED where there is nothing to work on or the output is broken.
 */
#ifndef COMMON_H
#define COMMON_H

#include <inttypes.h>
#include <stdio.h>

#include "oysterknoll.h"

enum { DONE = 0, REFUSED = 1, FAILED = 2 };

/* One byte over the longest packet shows that it is too long; what comes after cannot change the answer. */
#define ROOM (OYK_LONGEST_PACKET + 1)

/* Whether the archive goes with the header. The structs of another version may differ, so this is asked before all else. */
static inline int version_fits(const char *program)
{
    if (oyk_version() == OYK_VERSION)
        return 1;
    fprintf(stderr, "%s: the library is of another version than the header\n", program);
    return 0;
}

/* Reads the packet, ROOM bytes at most: of the one file named, or of standard input where none is. 0 where that fails, and it is said. */
static inline int read_packet(const char *program, int names, char **name, uint8_t *packet, size_t *length)
{
    FILE *file = names == 1 ? fopen(*name, "rb") : stdin;
    int broken;
    if (names > 1) {
        fprintf(stderr, "%s: one file, or none for standard input\n", program);
        return 0;
    }
    *length = file ? fread(packet, 1, ROOM, file) : 0;
    broken = !file || ferror(file);
    if (broken)
        perror(program);
    if (file && file != stdin)
        fclose(file);
    return !broken;
}

/* Says a refusal in words. */
static inline int refused(FILE *to, oyk_refusal refusal)
{
    fprintf(to, "refused by %" PRIu64 ", place %zu, tag %" PRIu64 "\n", refusal.number, refusal.place, refusal.tag);
    return REFUSED;
}

/* What to end with, once all output is out. */
static inline int finish(int ended)
{
    return fflush(stdout) == 0 && !ferror(stdout) ? ended : FAILED;
}

/* Writes the packet that oyk_write answered of to standard output. */
static inline int put_packet(const uint8_t *packet, oyk_size_answer written)
{
    if (written.refusal.number)
        return refused(stderr, written.refusal);
    fwrite(packet, 1, written.size, stdout);
    return finish(DONE);
}

#endif

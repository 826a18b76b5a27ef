/* Judges a pre-advice file from C: judge_file FILE. Prints `ok LINES PARCELS CENTS` and exits with 0, or `no NUMBER PLACE` and with 1,
 * as ./judge does; a file that cannot be read is told on standard error, with the exit status 2. No countries are lent, so that no
 * sender needs phone and mail. */
#include "peliranopi.h"

#include <inttypes.h>
#include <stdio.h>

/* One byte more than a file may have, so that a longer file is seen to be one. Nothing behind it is read. */
static uint8_t file[PELIRANOPI_FILE_LEN_MAX + 1];
static uint32_t list[PELIRANOPI_LINES_MAX];
/* Pairs of capitals, of which none is lent. No pointer may be null, not even for length 0. */
static const uint8_t countries[] = "";

/* Reads the start of a file, up to the room for it; answers whether that was possible. */
static int read_start(const char *name, size_t *length)
{
    FILE *stream = fopen(name, "rb");
    if (stream == NULL)
        return 0;
    *length = fread(file, 1, sizeof file, stream);
    int whole = !ferror(stream);
    fclose(stream);
    return whole;
}

int main(int argc, char **argv)
{
    if (argc != 2) {
        fprintf(stderr, "usage: judge_file FILE\n");
        return 2;
    }
    size_t length;
    if (!read_start(argv[1], &length)) {
        perror(argv[1]);
        return 2;
    }
    size_t lines, parcels, place;
    uint64_t cents;
    uint32_t refusal = peliranopi_judge(file, length, countries, 0, list, sizeof list / sizeof list[0],
                                        &lines, &parcels, &cents, &place);
    if (refusal == PELIRANOPI_ACCEPTED)
        printf("ok %zu %zu %" PRIu64 "\n", lines, parcels, cents);
    else
        printf("no %" PRIu32 " %zu\n", refusal, place);
    /* An answer that could not be written must not pass for one. */
    if (fflush(stdout) != 0) {
        perror("standard output");
        return 2;
    }
    return refusal == PELIRANOPI_ACCEPTED ? 0 : 1;
}

/* Prints the lines of a description file that are kept if nothing is set, in the old edition, or the refusal, with its place as compilers
 * write it:
 *
 *     cc -o select select.c $(pkg-config --cflags --libs korzhinay)
 *     ./select board.dsc
 */
#include <inttypes.h>
#include <korzhinay.h>
#include <stdio.h>

/* One byte more than a file may have, so that a longer one is refused and not cut. */
static uint8_t file[KORZHINAY_MAX_FILE_BYTES + 1];
static uint8_t marks[KORZHINAY_MAX_LINES];

int main(int argc, char **argv)
{
    if (argc != 2) {
        fprintf(stderr, "usage: select FILE\n");
        return 2;
    }
    FILE *input = fopen(argv[1], "rb");
    size_t length = input == NULL ? 0 : fread(file, 1, sizeof file, input);
    if (input == NULL || ferror(input)) {
        perror(argv[1]);
        return 2;
    }
    fclose(input);

    uint64_t out[4];
    uint8_t refusal = korzhinay_select(marks, sizeof marks, file, length, NULL, 0, KORZHINAY_EDITION_OLD, out);
    if (refusal != 0) {
        uint64_t line = out[0] == 0 ? 1 : out[0], column = out[3] + 1;
        fprintf(stderr, "%s:%" PRIu64 ":%" PRIu64 ": refused (%d): %s\n", argv[1], line, column, refusal, korzhinay_meaning(refusal));
        return 1;
    }

    size_t line = 0;
    for (size_t i = 0; i < length; i++) {
        if (marks[line] == KORZHINAY_MARK_KEPT || marks[line] == KORZHINAY_MARK_DEFINE)
            putchar(file[i]);
        if (file[i] == '\n')
            line++;
    }
    return fflush(stdout) == 0 && !ferror(stdout) ? 0 : 2;
}

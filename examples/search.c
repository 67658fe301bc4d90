/* Searches a table at a margin in grains: search FILE MARGIN. Prints low, high, the play's node (0 for none) and the leaves read. */
#include <inttypes.h>
#include <stdio.h>
#include <stdlib.h>

#include "margin_engine.h"

int main(int argc, char **argv) {
    static uint8_t text[MARGIN_MOST_BYTES + 1]; /* one byte more, so that a table that is too long is refused */
    uint16_t leaves[MARGIN_MOST_NODES];
    int64_t numbers[5];

    FILE *file = argc == 3 ? fopen(argv[1], "rb") : NULL;
    if (file == NULL) {
        fprintf(stderr, "usage: search FILE MARGIN\n");
        return 2;
    }
    size_t length = fread(text, 1, sizeof text, file);
    fclose(file);

    uint64_t code = margin_search(text, length, strtoll(argv[2], NULL, 10), leaves, MARGIN_MOST_NODES, numbers, 5);
    if (code != 0) {
        printf("refused %" PRIu64 ", line %" PRIu64 "\n", MARGIN_NUMBER(code), MARGIN_LINE(code));
        return 1;
    }
    printf("low %" PRId64 "\nhigh %" PRId64 "\nplay node %" PRId64 "\nleaves", numbers[0], numbers[1], numbers[2]);
    for (int64_t i = 0; i < numbers[3]; i++) {
        printf(" %" PRIu16, leaves[i]);
    }
    printf("\n");
    return 0;
}

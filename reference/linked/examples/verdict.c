/* The verdict on a sheet that stands on standard input, as `furlazon_verdict` answers it; with an argument, under the bans of the list
 * in the file that it names. */
#include "furlazon.h"

#include <inttypes.h>
#include <stdio.h>
#include <stdlib.h>

/* One byte past the limit is enough to see that a sheet or a list is too long. */
static uint8_t sheet[FURLAZON_SHEET_BYTES + 1];
static uint8_t bans[FURLAZON_BANS_BYTES + 1];
static uint8_t table[FURLAZON_TABLE_BYTES];
static uint8_t enlarged[FURLAZON_TABLE_BYTES];
static uint8_t message[FURLAZON_VERDICT_ENTRIES];
static uint8_t first[FURLAZON_VERDICT_ENTRIES];
static uint8_t second[FURLAZON_VERDICT_ENTRIES];
static uint64_t work[FURLAZON_VERDICT_WORK];
static uint64_t answer[FURLAZON_ANSWER_ENTRIES];

static void print_words(const uint8_t *words, uint64_t count) {
    for (uint64_t i = 0; i < count; i++) {
        printf("%s%u", i == 0 ? "" : ",", (unsigned)words[i]);
    }
    printf("\r\n");
}

static void print_verdict(void) {
    if (answer[0] == FURLAZON_DELAY) {
        printf("decipherable,%" PRIu64 "\r\n", answer[1]);
    } else if (answer[0] == FURLAZON_WITHOUT_BOUND) {
        printf("decipherable,unbounded\r\n");
    } else {
        printf("ambiguous,");
        for (uint64_t i = 0; i < answer[1]; i++) {
            printf("%X", (unsigned)message[i]);
        }
        printf("\r\n");
        print_words(first, answer[2]);
        print_words(second, answer[3]);
    }
}

/* Reads a file into a buffer, as much as there is room for. */
static size_t read_file(FILE *file, const char *name, uint8_t *buffer, size_t room) {
    size_t length = file == NULL ? 0 : fread(buffer, 1, room, file);
    if (file == NULL || ferror(file)) {
        perror(name);
        exit(1);
    }
    return length;
}

int main(int count, char **arguments) {
    if (count > 2) {
        fprintf(stderr, "usage: %s [LIST.bans] < SHEET.csv\n", arguments[0]);
        return 2;
    }
    size_t length = read_file(stdin, "standard input", sheet, sizeof sheet);
    size_t bans_length = count == 2 ? read_file(fopen(arguments[1], "rb"), arguments[1], bans, sizeof bans) : 0;
    uint64_t refused = furlazon_take_in(sheet, length, table, sizeof table);
    if (refused == 0) {
        refused = furlazon_enlarge(table, sizeof table, bans, bans_length, enlarged, sizeof enlarged);
    }
    if (refused == 0) {
        refused = furlazon_verdict(enlarged, sizeof enlarged, message, sizeof message, first, sizeof first, second, sizeof second,
                                   work, FURLAZON_VERDICT_WORK, answer, FURLAZON_ANSWER_ENTRIES);
    }
    if (refused != 0) {
        printf("refused,%" PRIu64 "\r\n", refused);
        return 0;
    }
    print_verdict();
    return 0;
}

/* Code U from a sheet in memory: its verdict, the only reading of a message, the message again from the reading, a sequence that is
 * refused, the empty message, and the words of a line that comes in symbol by symbol. Then the same code with a ban on 0 after 01 and
 * 10: its verdict, and what the ban forbids. Then the built-in code of the twelve Turkish types: its verdict, with the message and both
 * readings, why it names no next word, and words that it splits. Last a class sheet that tells r from the other consonants, words split
 * by it, and a class sheet that is refused. Prints what binding/examples/operations.rs prints. */
#include "furlazon.h"

#include <inttypes.h>
#include <stdio.h>

static const char sheet[] = "0,1,1,0,0\r\n10,1,1,1,1\r\n01,1,1,0,0\r\n101,1,1,1,1\r\n";
static const char bans[] = "0,2,1\r\n";
/* One reading, several, none. The E7 of ISO 8859-9 is a c with cedilla. */
static const char text[] = "krali\xE7" "e, kongre, bb";
/* Vowels are symbol 0, r is 2 and the other consonants are 1: small letters of ASCII only. */
static const char class_sheet[] = "61,61,0\r\n65,65,0\r\n69,69,0\r\n6F,6F,0\r\n75,75,0\r\n72,72,2\r\n"
                                  "62,64,1\r\n66,68,1\r\n6A,6E,1\r\n70,70,1\r\n73,74,1\r\n76,76,1\r\n79,7A,1\r\n";
/* The small e is in two records. */
static const char overlapping[] = "61,7A,1\r\n65,65,0\r\n";
/* Syllables in which r may come first, or second after another consonant. */
static const char syllables[] = "10,1,1,1,1,1,1\r\n101,1,1,1,1,1,1\r\n120,1,1,1,1,1,1\r\n"
                                "1201,1,1,1,1,1,1\r\n20,1,1,1,1,1,1\r\n201,1,1,1,1,1,1\r\n";
static const char other_text[] = "kongre, matris, bb";
static uint8_t table[FURLAZON_TABLE_BYTES];
static uint8_t enlarged[FURLAZON_TABLE_BYTES];
static uint8_t classes[FURLAZON_CLASSES_BYTES];
static uint8_t message[FURLAZON_VERDICT_ENTRIES];
static uint8_t out[FURLAZON_SPLIT_OUT(sizeof text - 1)];
static uint8_t first[FURLAZON_VERDICT_ENTRIES];
static uint8_t second[FURLAZON_VERDICT_ENTRIES];
static uint64_t work[FURLAZON_VERDICT_WORK];
static uint64_t answer[FURLAZON_ANSWER_ENTRIES];

static void print_entries(const char *name, const uint8_t *entries, uint64_t count) {
    printf(", %s [", name);
    for (uint64_t i = 0; i < count; i++) {
        printf("%s%u", i == 0 ? "" : ", ", (unsigned)entries[i]);
    }
    printf("]\n");
}

static void print_answer(const char *name, uint64_t refused) {
    printf("%s: refusal %" PRIu64 ", answer [%" PRIu64 ", %" PRIu64 ", %" PRIu64 ", %" PRIu64 "]", name, refused, answer[0], answer[1],
           answer[2], answer[3]);
}

/* Prints a text as UTF-8. Six letters of Turkish would need a case of their own: all others have their numbers in Unicode too. */
static void print_text(const uint8_t *bytes, uint64_t count) {
    for (uint64_t i = 0; i < count; i++) {
        if (bytes[i] < 0x80) {
            putchar(bytes[i]);
        } else {
            putchar(0xC0 | bytes[i] >> 6);
            putchar(0x80 | (bytes[i] & 0x3F));
        }
    }
    printf("\n");
}

/* Splits a text of n bytes, no longer than `text`, with no more of the buffers than that needs. */
static uint64_t split(const char *bytes, size_t n) {
    return furlazon_split(table, sizeof table, classes, sizeof classes, (const uint8_t *)bytes, n, out, FURLAZON_SPLIT_OUT(n), message,
                          FURLAZON_SPLIT_ENTRIES(n), first, FURLAZON_SPLIT_ENTRIES(n), second, FURLAZON_SPLIT_ENTRIES(n), work,
                          FURLAZON_SPLIT_WORK(n), answer, FURLAZON_ANSWER_ENTRIES);
}

/* The next word of the first n symbols. */
static uint64_t next(const uint8_t *symbols, size_t n) {
    return furlazon_next(table, sizeof table, symbols, n, work, FURLAZON_VERDICT_WORK, answer, FURLAZON_ANSWER_ENTRIES);
}

/* Names the words of a line that comes in symbol by symbol. The next word is told once as many symbols as the delay stand behind the
 * last break, and at the end of the line by those that are left. Every word may begin, so what is left is a message. */
static void print_words(const uint8_t *line, size_t length, size_t delay) {
    size_t begin = 0;
    for (size_t end = 1; end <= length; end++) {
        while (begin < end && (begin + delay <= end || end == length)) {
            const uint64_t refused = next(line + begin, end - begin);
            printf("next word after %u symbols", (unsigned)end);
            print_answer("", refused);
            printf("\n");
            if (refused != 0) {
                break;
            }
            /* The length of a word stands behind its symbols. */
            begin += table[answer[0] * (FURLAZON_WORD_SYMBOLS + 1) + FURLAZON_WORD_SYMBOLS];
        }
    }
}

int main(void) {
    if (furlazon_take_in((const uint8_t *)sheet, sizeof sheet - 1, table, sizeof table) != 0) {
        return 1;
    }
    uint64_t refused = furlazon_verdict(table, sizeof table, message, sizeof message, first, sizeof first, second, sizeof second, work,
                                        FURLAZON_VERDICT_WORK, answer, FURLAZON_ANSWER_ENTRIES);
    print_answer("verdict", refused);
    printf("\n");
    const size_t delay = answer[1];

    /* No more of the buffers than reading a message of five symbols needs. */
    const uint8_t symbols[] = {0, 1, 1, 0, 1};
    refused = furlazon_read(table, sizeof table, symbols, sizeof symbols, first, FURLAZON_READ_ENTRIES(sizeof symbols), second,
                            FURLAZON_READ_ENTRIES(sizeof symbols), work, FURLAZON_READ_WORK(sizeof symbols), answer,
                            FURLAZON_ANSWER_ENTRIES);
    print_answer("reading of 01101", refused);
    print_entries("words", first, answer[1]);

    refused = furlazon_encode(table, sizeof table, first, answer[1], message, sizeof message, answer, FURLAZON_ANSWER_ENTRIES);
    printf("its message: refusal %" PRIu64, refused);
    print_entries("symbols", message, answer[0]);

    const uint8_t forbidden[] = {2, 0};
    refused = furlazon_encode(table, sizeof table, forbidden, sizeof forbidden, message, sizeof message, answer, FURLAZON_ANSWER_ENTRIES);
    printf("word 0 after word 2: %s\n", refused == FURLAZON_REFUSED_FORBIDDEN_PAIR ? "forbidden" : "not forbidden");

    /* An empty buffer may be NULL. */
    refused = furlazon_read(table, sizeof table, NULL, 0, NULL, 0, NULL, 0, work, FURLAZON_READ_WORK(0), answer,
                            FURLAZON_ANSWER_ENTRIES);
    print_answer("reading of the empty message", refused);
    printf("\n");

    const uint8_t line[] = {0, 1, 1, 0, 1, 1, 0, 0, 0, 1};
    print_words(line, sizeof line, delay);
    const uint8_t begun[] = {1, 0, 1, 1};
    refused = next(begun, sizeof begun);
    print_answer("next word of 1011", refused);
    printf("\n");
    refused = next(begun, 1);
    printf("next word of 1: %s\n", refused == FURLAZON_REFUSED_NO_READING ? "none" : "some");

    if (furlazon_enlarge(table, sizeof table, (const uint8_t *)bans, sizeof bans - 1, enlarged, sizeof enlarged) != 0) {
        return 1;
    }
    refused = furlazon_verdict(enlarged, sizeof enlarged, message, sizeof message, first, sizeof first, second, sizeof second, work,
                               FURLAZON_VERDICT_WORK, answer, FURLAZON_ANSWER_ENTRIES);
    print_answer("verdict with the ban", refused);
    printf("\n");

    const uint8_t words[] = {2, 1, 0};
    refused = furlazon_encode(table, sizeof table, words, sizeof words, message, sizeof message, answer, FURLAZON_ANSWER_ENTRIES);
    printf("words 2, 1, 0: refusal %" PRIu64, refused);
    print_entries("symbols", message, answer[0]);
    const uint64_t length = answer[0];
    refused = furlazon_encode(enlarged, sizeof enlarged, words, sizeof words, message, sizeof message, answer, FURLAZON_ANSWER_ENTRIES);
    printf("words 2, 1, 0 with the ban: %s\n", refused == FURLAZON_REFUSED_FORBIDDEN_PAIR ? "forbidden" : "not forbidden");
    refused = furlazon_read(enlarged, sizeof enlarged, message, length, first, sizeof first, second, sizeof second, work,
                            FURLAZON_VERDICT_WORK, answer, FURLAZON_ANSWER_ENTRIES);
    printf("reading of that message with the ban: %s\n", refused == FURLAZON_REFUSED_NO_READING ? "none" : "some");

    if (furlazon_turkish(table, sizeof table) != 0) {
        return 1;
    }
    refused = furlazon_verdict(table, sizeof table, message, sizeof message, first, sizeof first, second, sizeof second, work,
                               FURLAZON_VERDICT_WORK, answer, FURLAZON_ANSWER_ENTRIES);
    print_answer("verdict on the Turkish types", refused);
    print_entries("message", message, answer[1]);
    printf("its first reading");
    print_entries("words", first, answer[2]);
    printf("its second reading");
    print_entries("words", second, answer[3]);
    refused = next(begun, sizeof begun);
    printf("next word by the Turkish types: %s\n", refused == FURLAZON_REFUSED_NO_FINITE_DELAY ? "no finite delay" : "a finite delay");

    if (furlazon_turkish_classes(classes, sizeof classes) != 0) {
        return 1;
    }
    refused = split(text, sizeof text - 1);
    print_answer("text split by the Turkish types", refused);
    printf(": ");
    print_text(out, answer[0]);

    refused = furlazon_take_classes((const uint8_t *)class_sheet, sizeof class_sheet - 1, classes, sizeof classes);
    printf("class sheet: refusal %" PRIu64, refused);
    const uint8_t letters[] = {classes['a'], classes['r'], classes['t'], classes['.']};
    print_entries("classes of a, r, t and .", letters, sizeof letters);
    if (furlazon_take_in((const uint8_t *)syllables, sizeof syllables - 1, table, sizeof table) != 0) {
        return 1;
    }
    refused = split(other_text, sizeof other_text - 1);
    print_answer("text split by three classes", refused);
    printf(": ");
    print_text(out, answer[0]);

    refused = furlazon_take_classes((const uint8_t *)overlapping, sizeof overlapping - 1, classes, sizeof classes);
    printf("class sheet with e in two records: %s\n", refused == FURLAZON_REFUSED_CLASS_OVERLAP ? "refused" : "not refused for that");
    return 0;
}

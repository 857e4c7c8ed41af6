/* Codes with forbidden successors: taking in a sheet, the built-in code of the twelve Turkish types, enlarging a code by a ban
 * list, encoding, reading, taking in the letter classes of a class sheet, the built-in Turkish letters, splitting the words of a
 * text, the verdict, and the next word of a message that is still coming in.
 *
 * The functions are proved for every input that this file allows: pointers to as many entries as the length beside them says,
 * no two of them overlapping where one is written, and 8-byte alignment for uint64_t. Nothing else is asked. Where a length is 0
 * the pointer may be NULL: nothing is read or written through it, and the buffer is an empty one.
 * docs/LINKING.md tells how to link them.
 *
 * Every function returns 0 for a result and otherwise the number of a refusal, the lowest that holds; furlazon_next alone has another
 * order, which stands with it, and returns the first that holds. But a function that reads `table`, or `table` and `classes`, tests
 * their lengths before everything else: where one of them is too short, the number is FURLAZON_REFUSED_SHORT_BUFFER, whatever else
 * holds. Every other buffer that is too short, `answer` too, gets that number in its place among the others.
 *
 * A refusal changes no buffer, except that FURLAZON_REFUSED_NO_READING leaves `work` all zero, and that of furlazon_next
 * FURLAZON_REFUSED_NO_FINITE_DELAY and FURLAZON_REFUSED_MESSAGE_SYMBOL do so too. A result leaves the whole of `work` zero, and in every
 * other buffer what stands past the written part as it was; but splitting leaves `message`, `first` and `second` zero, each whole.
 *
 * A ban says that word X never follows word Y and then word Z. A code with such bans has copies of words; a table with copies is
 * taken wherever one without is, but not enlarged again. Words are always named by their original numbers, never by the number of a
 * copy.
 *
 * Classes say for each byte of a text which symbol it stands for, or that it is no letter.
 */
#ifndef FURLAZON_H
#define FURLAZON_H

#include <stddef.h>
#include <stdint.h>

#ifdef __cplusplus
extern "C" {
#endif

/* Version of this file and of the library that it came with. The second number is that of the last change request that is in, and
 * docs/notes has a page for each; the third rises where this file changes without a request, and begins at 0 with the next one. The
 * first stays 0 as long as a request may change a declaration, a macro or an image. The library does not tell its version: use it with
 * the header of the same build. */
#define FURLAZON_VERSION_MAJOR 0
#define FURLAZON_VERSION_MINOR 7
#define FURLAZON_VERSION_PATCH 0
#define FURLAZON_VERSION "0.7.0"

/* Limits. */
#define FURLAZON_ALPHABET 16            /* a symbol is a number below it */
#define FURLAZON_CODE_WORDS 32          /* words of a code */
#define FURLAZON_WORD_SYMBOLS 16        /* symbols of a word */
#define FURLAZON_CODE_SYMBOLS 128       /* symbols of all words together */
#define FURLAZON_SHEET_BYTES 4096       /* bytes of a sheet */
#define FURLAZON_BANS_BYTES 4096        /* bytes of a ban list */
#define FURLAZON_CLASS_SHEET_BYTES 4096 /* bytes of a class sheet */
#define FURLAZON_MESSAGE_SYMBOLS 16384  /* symbols of a message, for encoding, reading and the next word */
#define FURLAZON_TEXT_BYTES 16384       /* bytes of a text, for splitting */

/* Refusals, under the names that they have in the source. */
#define FURLAZON_REFUSED_SHEET_LENGTH 1     /* a sheet of 0 bytes or over FURLAZON_SHEET_BYTES, a class sheet of 0 bytes or over
                                               FURLAZON_CLASS_SHEET_BYTES, a ban list over FURLAZON_BANS_BYTES */
#define FURLAZON_REFUSED_SHEET_BYTES 2      /* a byte other than 0-9, A-F, comma, CR, LF; a CR without LF next; an LF without CR before */
#define FURLAZON_REFUSED_RECORD_COUNT 3     /* more than FURLAZON_CODE_WORDS records */
#define FURLAZON_REFUSED_WORD_LENGTH 4      /* a first field that is empty or has over FURLAZON_WORD_SYMBOLS digits */
#define FURLAZON_REFUSED_CODE_LENGTH 5      /* over FURLAZON_CODE_SYMBOLS symbols in all */
#define FURLAZON_REFUSED_FIELD_COUNT 6      /* n records of which not all have n + 1 fields, nor all n + 2 */
#define FURLAZON_REFUSED_ROW_ENTRY 7        /* a row entry other than the single digit 0 or 1 */
#define FURLAZON_REFUSED_NOT_FROM_SHEET 8   /* a table that no accepted sheet gives, nor one with an accepted ban list; classes that no
                                               accepted class sheet gives */
#define FURLAZON_REFUSED_UNKNOWN_WORD 9     /* a word number that is not in the table; the number of a copy is none */
#define FURLAZON_REFUSED_FORBIDDEN_PAIR 10  /* a neighbouring pair that is not permitted; a first word that may not begin; a banned
                                               triple */
#define FURLAZON_REFUSED_MESSAGE_LENGTH 11  /* a message of over FURLAZON_MESSAGE_SYMBOLS symbols; a text of over FURLAZON_TEXT_BYTES */
#define FURLAZON_REFUSED_MESSAGE_SYMBOL 12  /* a message symbol that is not below FURLAZON_ALPHABET */
#define FURLAZON_REFUSED_SHORT_BUFFER 13    /* a buffer that is too short */
#define FURLAZON_REFUSED_NO_READING 14      /* no permitted sequence has this message; no word is the next one */
#define FURLAZON_REFUSED_START_FIELD 15     /* a start field other than the single digit 0 or 1 */
#define FURLAZON_REFUSED_BAN_RECORD 16      /* a byte other than 0-9, comma, CR, LF; CR and LF not together; a record that is no ban */
#define FURLAZON_REFUSED_BAN_LIMIT 17       /* over FURLAZON_CODE_WORDS words or FURLAZON_CODE_SYMBOLS symbols with the copies */
#define FURLAZON_REFUSED_CLASS_RECORD 18    /* wrong bytes as for 2; a record that is not three fields of two, two and one digit; a record
                                               that takes in B7, 28, 29, 5B or 5D (hexadecimal) */
#define FURLAZON_REFUSED_CLASS_RANGE 19     /* a record whose lowest byte is above its highest */
#define FURLAZON_REFUSED_CLASS_OVERLAP 20   /* a byte in two records */
#define FURLAZON_REFUSED_NO_FINITE_DELAY 21 /* a table without a finite delay: ambiguous, or decipherable without bound */

/* Bytes of a table's image. For each of the 32 words its 16 symbols and then its length; then row 0 to row 31, with 32 entries
 * each; then the start marks of the 32 words; then the number of words. Entry Y of row X is 1 if word X may come immediately after
 * word Y, else 0. The start mark of a word is 1 if it may begin a message, else 0. Copies stand after the words and are counted
 * among them. So there follow the number of words that are no copies; then for each of the 32 words the number of the word that it
 * is a copy of, its own number where it is none; then for each the number of the word after which the copy stands, 0 where it is
 * none. All that stands past a word's length or past the number of words is zero. */
#define FURLAZON_TABLE_BYTES 1666

/* Bytes of classes. Entry B is the symbol that byte B stands for, 0 to 15, or FURLAZON_OTHER where B is no letter. */
#define FURLAZON_CLASSES_BYTES 256
#define FURLAZON_OTHER 16

/* Entries of an answer. */
#define FURLAZON_ANSWER_ENTRIES 4

/* Entries that a verdict needs: in `message`, `first` and `second` each, and in `work`. The next word needs as many in `work`. */
#define FURLAZON_VERDICT_ENTRIES 8384
#define FURLAZON_VERDICT_WORK 16384

/* Entries that reading a message of n symbols needs: in `first` and `second` each, and in `work`. */
#define FURLAZON_READ_ENTRIES(n) (n)
#define FURLAZON_READ_WORK(n) ((n) + 1)

/* Entries that splitting a text of n bytes needs: in `out`, in `message`, `first` and `second` each, and in `work`. */
#define FURLAZON_SPLIT_OUT(n) (2 * (n) + 1)
#define FURLAZON_SPLIT_ENTRIES(n) (n)
#define FURLAZON_SPLIT_WORK(n) ((n) + 1)

/* answer[0] of a reading: the message has one reading, or several. */
#define FURLAZON_ONE_READING 1
#define FURLAZON_SEVERAL_READINGS 2

/* answer[0] of a verdict. */
#define FURLAZON_AMBIGUOUS 1
#define FURLAZON_DELAY 2
#define FURLAZON_WITHOUT_BOUND 3

/* Takes in a code sheet of any bytes.
 * Needs: `table` of FURLAZON_TABLE_BYTES. Refusals: 1 to 7, 13, 15.
 * Result: the table's image, without copies, stands at the start of `table`. */
uint64_t furlazon_take_in(const uint8_t *sheet, size_t sheet_length, uint8_t *table, size_t table_length);

/* Gives the built-in code of the twelve Turkish types: words 0 to 11 are types A to L, 0 is a vowel and 1 a consonant. Every type
 * may begin. No vowel-first type follows a consonant-last one, and no type with two or more consonants first a vowel-last one.
 * Needs: `table` of FURLAZON_TABLE_BYTES. Refusals: 13.
 * Result: the table's image, without copies, stands at the start of `table`, as if sheets/turkish-twelve.csv were taken in. */
uint64_t furlazon_turkish(uint8_t *table, size_t table_length);

/* Enlarges a table without copies by a ban list of any bytes: records X,Y,Z of word numbers, Y and Z different.
 * Needs: `table` and `enlarged` of FURLAZON_TABLE_BYTES each. Refusals: 1, 8, 13, 16, 17; a table that has copies gets 8.
 * Result: the image of the enlarged table stands at the start of `enlarged`. It has the words, and then one copy of Z for each Y, Z,
 * in the order in which the list first names them. A list of 0 bytes holds no ban and gives the table itself. */
uint64_t furlazon_enlarge(const uint8_t *table, size_t table_length,
                          const uint8_t *bans, size_t bans_length,
                          uint8_t *enlarged, size_t enlarged_length);

/* Encodes a sequence of word numbers.
 * Needs: `table` of FURLAZON_TABLE_BYTES; `message` as long as the message; `answer` of FURLAZON_ANSWER_ENTRIES.
 * Refusals: 8, 9, 10, 11, 13.
 * Result: the message stands at the start of `message`; answer = { its length, 0, 0, 0 }. */
uint64_t furlazon_encode(const uint8_t *table, size_t table_length,
                         const uint8_t *words, size_t words_length,
                         uint8_t *message, size_t message_length,
                         uint64_t *answer, size_t answer_length);

/* Reads a message.
 * Needs, for a message of n symbols: `table` of FURLAZON_TABLE_BYTES; `first` and `second` of FURLAZON_READ_ENTRIES(n) each; `work` of
 * FURLAZON_READ_WORK(n); `answer` of FURLAZON_ANSWER_ENTRIES. Refusals: 8, 11, 12, 13, 14.
 * Result: the only reading stands at the start of `first`; answer = { FURLAZON_ONE_READING, its length in words, 0, 0 }.
 * Or the first two readings in word order stand in `first` and `second`; answer = { FURLAZON_SEVERAL_READINGS, the length of
 * the first in words, that of the second, 0 }. */
uint64_t furlazon_read(const uint8_t *table, size_t table_length,
                       const uint8_t *message, size_t message_length,
                       uint8_t *first, size_t first_length,
                       uint8_t *second, size_t second_length,
                       uint64_t *work, size_t work_length,
                       uint64_t *answer, size_t answer_length);

/* Takes in a class sheet of any bytes: records of lowest byte, highest byte (two hexadecimal digits each) and symbol digit. A byte
 * in no record is no letter. A record whose lowest byte is above its highest takes in no byte.
 * Needs: `classes` of FURLAZON_CLASSES_BYTES. Refusals: 1, 13, 18, 19, 20.
 * Result: the classes stand at the start of `classes`. */
uint64_t furlazon_take_classes(const uint8_t *sheet, size_t sheet_length, uint8_t *classes, size_t classes_length);

/* Gives the built-in classes of the Turkish letters in ISO 8859-9, small and capital, which docs/LINKING.md lists: a vowel is
 * symbol 0 and a consonant is symbol 1.
 * Needs: `classes` of FURLAZON_CLASSES_BYTES. Refusals: 13.
 * Result: the classes stand at the start of `classes`. */
uint64_t furlazon_turkish_classes(uint8_t *classes, size_t classes_length);

/* Splits the words of a text of any bytes into syllables. The classes say which bytes are letters and for which symbols they stand.
 * A word is a longest run of letters and has the readings of the message that they stand for.
 * Needs, for a text of n bytes: `table` of FURLAZON_TABLE_BYTES; `classes` of FURLAZON_CLASSES_BYTES; `out` of FURLAZON_SPLIT_OUT(n);
 * `message`, `first` and `second` of FURLAZON_SPLIT_ENTRIES(n) each; `work` of FURLAZON_SPLIT_WORK(n); `answer` of
 * FURLAZON_ANSWER_ENTRIES.
 * Refusals: 8, for the table or for the classes, 11, 13.
 * Result: the text stands at the start of `out`, a word with one reading with the byte B7 (hexadecimal) between its syllables, a
 * word without a reading between ( and ), a word with several between [ and ], and every other byte as it is; answer = { the length
 * of all this, 0, 0, 0 }. `message`, `first`, `second` and `work` are zero, each whole. */
uint64_t furlazon_split(const uint8_t *table, size_t table_length,
                        const uint8_t *classes, size_t classes_length,
                        const uint8_t *text, size_t text_length,
                        uint8_t *out, size_t out_length,
                        uint8_t *message, size_t message_length,
                        uint8_t *first, size_t first_length,
                        uint8_t *second, size_t second_length,
                        uint64_t *work, size_t work_length,
                        uint64_t *answer, size_t answer_length);

/* Gives the verdict on a table.
 * Needs: `table` of FURLAZON_TABLE_BYTES; `message`, `first` and `second` of FURLAZON_VERDICT_ENTRIES each; `work` of
 * FURLAZON_VERDICT_WORK; `answer` of FURLAZON_ANSWER_ENTRIES. Refusals: 8, 13.
 * Result, one of three:
 *   answer = { FURLAZON_AMBIGUOUS, symbols, words, words }: the shortest ambiguous message, the earliest in symbol order among
 *     equals, stands in `message`, and its first two readings in word order in `first` and `second`, with these lengths.
 *   answer = { FURLAZON_DELAY, delay, 0, 0 }: decipherable; the delay counts symbols, after what is shared.
 *   answer = { FURLAZON_WITHOUT_BOUND, 0, 0, 0 }: decipherable, without bound on the delay. */
uint64_t furlazon_verdict(const uint8_t *table, size_t table_length,
                          uint8_t *message, size_t message_length,
                          uint8_t *first, size_t first_length,
                          uint8_t *second, size_t second_length,
                          uint64_t *work, size_t work_length,
                          uint64_t *answer, size_t answer_length);

/* Names the next word of a message that is still coming in. Where the table has delay N, no more than the first N symbols of the
 * message are looked at.
 * Needs: `table` of FURLAZON_TABLE_BYTES; `work` of FURLAZON_VERDICT_WORK; `answer` of FURLAZON_ANSWER_ENTRIES.
 * Refusals, the first that holds in this order: 8; 11; 13; 21; 12, among the first N symbols alone; 14, where the message is empty or
 * no word is the next one. After 21, 12 and 14 `work` is all zero.
 * Result: answer = { the number of the word, 0, 0, 0 }. It is the one word that begins a permitted sequence, not the empty one, whose
 * message has the same first N symbols. A message shorter than N counts whole: only one that is equal to it has the same. So where
 * the message has a reading and is not empty, it is that reading's first word; and where N is 0, it is the one word that may begin,
 * whatever the symbols are. */
uint64_t furlazon_next(const uint8_t *table, size_t table_length,
                       const uint8_t *message, size_t message_length,
                       uint64_t *work, size_t work_length,
                       uint64_t *answer, size_t answer_length);

#ifdef __cplusplus
}
#endif

#endif

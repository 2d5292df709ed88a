/* Jigwaret: verdicts on the journals of electronic shelf labels.
 *
 * Link with libjigwaret.a. Each function returns 0 if the call is accepted, or the number of the
 * refusal; a refused call changes nothing. A slice is a pointer and the number of its elements.
 * The functions keep no state of their own: what a journal needs lies in the storage and the
 * record that the caller lends, and must not overlap with anything else that is handed over.
 *
 * A round is a set of letters. A letter is the inputs of a round as a number, bit i being input i; bit j
 * of a set says that letter j may have been the one. jigwaret_letters makes sets from masks, and `|`
 * joins them: where two inputs are known to be alike, the set has the letters 0 and 3, and is 9.
 *
 * A journal begins with jigwaret_prepare. Each later call of it must be handed the same sheet as
 * that preparation, and the storage and the record as the call before left them. No call
 * finds out whether they are: with another sheet, or with storage that was never prepared, it works
 * on the slices that it is handed, and its answers say nothing about a journal. */

#ifndef JIGWARET_H
#define JIGWARET_H

#include <stddef.h>
#include <stdint.h>

#ifdef __cplusplus
extern "C" {
#endif

/* Numbers of 64 bits that a journal's storage has at least; more are not touched. */
#define JIGWARET_STORAGE_WORDS 3084

/* Numbers of a journal's record: rounds, closed (0 or 1), then for each of seven outputs the rounds
 * with the verdict true, false, open, broken. */
#define JIGWARET_RECORD_NUMBERS 30

/* Numbers that an answer has room for at least. */
#define JIGWARET_ANSWER_NUMBERS 16

/* The most rounds of a journal. */
#define JIGWARET_MAX_ROUNDS 1000000

/* The most letters of an evaluation. */
#define JIGWARET_MAX_LETTERS 4096

/* What is known of an output in a round, or of all outputs of a set together. */
enum jigwaret_verdict {
    JIGWARET_FALSE = 0,  /* false in every completion */
    JIGWARET_TRUE = 1,   /* true in every completion */
    JIGWARET_OPEN = 2,   /* true in one, false in another */
    JIGWARET_BROKEN = 3  /* there is no completion */
};

/* What a call returns; `jigwaret_text` says what each means. */
enum jigwaret_outcome {
    JIGWARET_ACCEPTED = 0,
    JIGWARET_SHORT = 1,
    JIGWARET_MARK = 2,
    JIGWARET_VERSION = 3,
    JIGWARET_COUNTS = 4,
    JIGWARET_ASSUMPTION = 5,
    JIGWARET_LENGTH = 6,
    JIGWARET_BYTE = 7,
    JIGWARET_VALUES = 8,
    JIGWARET_LEFTOVER = 9,
    JIGWARET_CIRCULAR = 10,
    JIGWARET_LETTER = 11,
    JIGWARET_CLOSED = 12,
    JIGWARET_FULL = 13,
    JIGWARET_NO_ROUND = 14,
    JIGWARET_STORAGE = 15,
    JIGWARET_EXTENT = 16,
    JIGWARET_LINE = 17,  /* only the journal program gives it */
    JIGWARET_RECORD = 18,
    JIGWARET_ROUND_SET = 21,
    JIGWARET_OUTPUT_SET = 24,
    JIGWARET_WRONG_SIZES = 255
};

/* What a returned number means, in a line without a full stop. Every number is allowed. */
static inline const char *jigwaret_text(uint32_t outcome)
{
    switch (outcome) {
    case JIGWARET_ACCEPTED:
        return "accepted";
    case JIGWARET_SHORT:
        return "the sheet has fewer than 8 bytes";
    case JIGWARET_MARK:
        return "the sheet does not begin with SLR";
    case JIGWARET_VERSION:
        return "the version is neither 1 nor 2";
    case JIGWARET_COUNTS:
        return "inputs, outputs or their sum are out of range";
    case JIGWARET_ASSUMPTION:
        return "the assumption is neither an output nor 255";
    case JIGWARET_LENGTH:
        return "a length is missing, 0, over 64, or goes past the end";
    case JIGWARET_BYTE:
        return "a byte is unknown, or names a stream that the sheet lacks";
    case JIGWARET_VALUES:
        return "an operator lacks a value, or an expression does not leave exactly one";
    case JIGWARET_LEFTOVER:
        return "bytes are left over";
    case JIGWARET_CIRCULAR:
        return "some value reaches itself";
    case JIGWARET_LETTER:
        return "a known bit or a letter lies beyond the inputs, or a value bit is not known";
    case JIGWARET_CLOSED:
        return "the journal is closed";
    case JIGWARET_FULL:
        return "the journal holds 1,000,000 rounds";
    case JIGWARET_NO_ROUND:
        return "a closing with no round";
    case JIGWARET_STORAGE:
        return "the storage is too short";
    case JIGWARET_EXTENT:
        return "no letters, over 4,096, or a buffer that is too small";
    case JIGWARET_LINE:
        return "a line of the program's input is malformed";
    case JIGWARET_RECORD:
        return "the record is not one of a journal";
    case JIGWARET_ROUND_SET:
        return "a round's set of letters is empty or has a letter beyond the inputs";
    case JIGWARET_OUTPUT_SET:
        return "a set of outputs names one that the sheet lacks";
    case JIGWARET_WRONG_SIZES:
        return "the record or the answer has the wrong number of elements";
    default:
        return "nothing has this number";
    }
}

/* Checks a sheet. */
uint32_t jigwaret_check(const uint8_t *sheet, size_t sheet_len);

/* Writes for each letter the byte whose bit k is output k. `out` has at least as many bytes as there
 * are letters; the others keep their contents. */
uint32_t jigwaret_evaluate(const uint8_t *sheet, size_t sheet_len,
                           const uint8_t *letters, size_t letters_len,
                           uint8_t *out, size_t out_len);

/* Prepares storage for a journal of the sheet, whatever it held, and makes the record a fresh one.
 * answer[0] is the number of live pairs, answer[1] the exact reach: the most further rounds that any
 * live pair needs to its end. A journal of one round or more that can be completed at all can be
 * completed with at most so many more. answer[2] and those behind it keep their contents; so did
 * answer[1] in releases before the reach was told. */
uint32_t jigwaret_prepare(const uint8_t *sheet, size_t sheet_len,
                          uint64_t *storage, size_t storage_len,
                          uint32_t *record, size_t record_len,
                          uint32_t *answer, size_t answer_len);

/* Writes the set of the letters that agree with the masks, for a sheet with so many inputs, 1 to 6: bit
 * i of `known` says that input i was heard, bit i of `value` what was heard. */
uint32_t jigwaret_letters(uint8_t inputs, uint8_t known, uint8_t value, uint64_t *letters);

/* Takes a round of the journal that was prepared with this sheet in this storage and record. `letters`
 * has one letter at least, and none beyond the sheet's inputs. answer[k] is the verdict on output k. */
uint32_t jigwaret_round(const uint8_t *sheet, size_t sheet_len,
                        uint64_t *storage, size_t storage_len,
                        uint32_t *record, size_t record_len,
                        uint64_t letters,
                        uint32_t *answer, size_t answer_len);

/* Closes the journal that was prepared with this sheet in this storage and record. With n outputs,
 * answer[k] is the verdict on output k in the last round if nothing follows it, and answer[n + k] its
 * share: true rounds per thousand, to the nearest, and from half-way between two to the even one: of 16
 * rounds 1 is 62 and 3 are 188. */
uint32_t jigwaret_close(const uint8_t *sheet, size_t sheet_len,
                        const uint64_t *storage, size_t storage_len,
                        uint32_t *record, size_t record_len,
                        uint32_t *answer, size_t answer_len);

/* Says whether all outputs of a set are true together in the last round of the journal that was prepared
 * with this sheet in this storage and record: bit k of `outputs` names output k, and answer[0] is the
 * verdict, over the completions that the round's verdicts are over. answer[1] and those behind it keep
 * their contents; storage and record are only read. A set of one output has the verdict that the round
 * gave that output, and the empty set is true, or broken where the round was. Two outputs may each be open
 * although no completion has both; then the set of both is false. */
uint32_t jigwaret_together(const uint8_t *sheet, size_t sheet_len,
                           const uint64_t *storage, size_t storage_len,
                           const uint32_t *record, size_t record_len,
                           uint8_t outputs,
                           uint32_t *answer, size_t answer_len);

#ifdef __cplusplus
}
#endif

#endif

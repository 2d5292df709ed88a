/* A whole journal through the library: prints what the journal program prints for the same lines, and
 * to standard error why a sheet or a line is refused. */

#include <stdio.h>
#include <string.h>

#include "jigwaret.h"

/* Input 0 is "sent", input 1 "acknowledged". Output 0: what is sent is acknowledged in this round or
 * the next. Output 1, the assumption: nothing is acknowledged that was not sent in this round or the
 * one before. */
static const uint8_t sheet[] = {0x53, 0x4C, 0x52, 0x01, 0x00, 0x02, 0x02, 0x01, 0x06, 0x40, 0x02,
                                0x41, 0x04, 0x61, 0x04, 0x06, 0x41, 0x02, 0x40, 0x04, 0x50, 0x04};

enum { INPUTS = 2, OUTPUTS = 2 };

/* Each line is a round, input 0 first, `?` where it was not heard; `.` closes. */
static const char *const lines[] = {"10", "?1", "1?", "00", "01", "."};

static uint64_t storage[JIGWARET_STORAGE_WORDS];
static uint32_t record[JIGWARET_RECORD_NUMBERS];
static uint32_t answer[JIGWARET_ANSWER_NUMBERS];

static void print_verdicts(void)
{
    for (int k = 0; k < OUTPUTS; k++)
        putchar("01?!"[answer[k]]);
    putchar('\n');
}

/* The set of the letters that a line stands for. */
static uint32_t read_line(const char *line, uint64_t *letters)
{
    uint8_t known = 0, value = 0;
    for (int i = 0; i < INPUTS; i++) {
        known |= (uint8_t)((line[i] != '?') << i);
        value |= (uint8_t)((line[i] == '1') << i);
    }
    return jigwaret_letters(INPUTS, known, value, letters);
}

static uint32_t hear(const char *line)
{
    uint64_t letters;
    uint32_t refusal = read_line(line, &letters);
    if (refusal != JIGWARET_ACCEPTED)
        return refusal;
    refusal = jigwaret_round(sheet, sizeof sheet, storage, JIGWARET_STORAGE_WORDS, record,
                             JIGWARET_RECORD_NUMBERS, letters, answer, JIGWARET_ANSWER_NUMBERS);
    if (refusal == JIGWARET_ACCEPTED)
        print_verdicts();
    return refusal;
}

static uint32_t finish(void)
{
    uint32_t refusal = jigwaret_close(sheet, sizeof sheet, storage, JIGWARET_STORAGE_WORDS, record,
                                      JIGWARET_RECORD_NUMBERS, answer, JIGWARET_ANSWER_NUMBERS);
    if (refusal != JIGWARET_ACCEPTED)
        return refusal;
    putchar('=');
    print_verdicts();
    for (int k = 0; k < OUTPUTS; k++) {
        const uint32_t *counts = record + 2 + 4 * k;
        printf("# %d %u %u %u %u %u\n", k, (unsigned)counts[0], (unsigned)counts[1],
               (unsigned)counts[2], (unsigned)counts[3], (unsigned)answer[OUTPUTS + k]);
    }
    return JIGWARET_ACCEPTED;
}

int main(void)
{
    uint32_t refusal = jigwaret_prepare(sheet, sizeof sheet, storage, JIGWARET_STORAGE_WORDS, record,
                                        JIGWARET_RECORD_NUMBERS, answer, JIGWARET_ANSWER_NUMBERS);
    if (refusal != JIGWARET_ACCEPTED) {
        printf("refused %u sheet\n", (unsigned)refusal);
        fprintf(stderr, "%s\n", jigwaret_text(refusal));
        return 1;
    }
    for (size_t line = 0; line < sizeof lines / sizeof lines[0]; line++) {
        refusal = strcmp(lines[line], ".") == 0 ? finish() : hear(lines[line]);
        if (refusal != JIGWARET_ACCEPTED) {
            printf("refused %u line %zu\n", (unsigned)refusal, line + 1);
            fprintf(stderr, "%s\n", jigwaret_text(refusal));
            return 1;
        }
    }
    return 0;
}

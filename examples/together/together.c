/* A journal of two labels through the library: prints for each round the verdicts on all outputs, and
 * that on outputs 0 and 1 together. */

#include <stdio.h>

#include "jigwaret.h"

/* Input i is "label i shows the new price", and output i says just that. Output 2, the assumption: no
 * label goes back to the old price. */
static const uint8_t sheet[] = {0x53, 0x4C, 0x52, 0x01, 0x00, 0x02, 0x03, 0x02, 0x01, 0x40, 0x01,
                                0x41, 0x09, 0x50, 0x02, 0x40, 0x04, 0x51, 0x02, 0x41, 0x04, 0x03};

enum { OUTPUTS = 3, BOTH_LABELS = 1 << 0 | 1 << 1 };

/* What a relay says of the labels: a letter has bit i for label i, a set bit j for letter j. */
enum { ALIKE = 1 << 0 | 1 << 3, DIFFERENT = 1 << 1 | 1 << 2, NOTHING = ALIKE | DIFFERENT };

static const uint64_t rounds[] = {ALIKE, DIFFERENT, NOTHING, ALIKE};

static uint64_t storage[JIGWARET_STORAGE_WORDS];
static uint32_t record[JIGWARET_RECORD_NUMBERS];
static uint32_t answer[JIGWARET_ANSWER_NUMBERS];

static uint32_t prepare(void)
{
    return jigwaret_prepare(sheet, sizeof sheet, storage, JIGWARET_STORAGE_WORDS, record,
                            JIGWARET_RECORD_NUMBERS, answer, JIGWARET_ANSWER_NUMBERS);
}

static uint32_t hear(uint64_t letters)
{
    uint32_t refusal = jigwaret_round(sheet, sizeof sheet, storage, JIGWARET_STORAGE_WORDS, record,
                                      JIGWARET_RECORD_NUMBERS, letters, answer, JIGWARET_ANSWER_NUMBERS);
    if (refusal != JIGWARET_ACCEPTED)
        return refusal;
    for (int k = 0; k < OUTPUTS; k++)
        putchar("01?!"[answer[k]]);
    return JIGWARET_ACCEPTED;
}

static uint32_t ask(uint8_t outputs)
{
    uint32_t refusal = jigwaret_together(sheet, sizeof sheet, storage, JIGWARET_STORAGE_WORDS, record,
                                         JIGWARET_RECORD_NUMBERS, outputs, answer, JIGWARET_ANSWER_NUMBERS);
    if (refusal == JIGWARET_ACCEPTED)
        printf(" together %c\n", "01?!"[answer[0]]);
    return refusal;
}

int main(void)
{
    uint32_t refusal = prepare();
    for (size_t t = 0; refusal == JIGWARET_ACCEPTED && t < sizeof rounds / sizeof rounds[0]; t++) {
        refusal = hear(rounds[t]);
        if (refusal == JIGWARET_ACCEPTED)
            refusal = ask(BOTH_LABELS);
    }
    if (refusal != JIGWARET_ACCEPTED) {
        fprintf(stderr, "refused %u: %s\n", (unsigned)refusal, jigwaret_text(refusal));
        return 1;
    }
    return 0;
}

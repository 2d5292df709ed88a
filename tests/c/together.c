/* Asks about several outputs together, in C99 and in C++: prints the verdicts of a round, those on each set
 * of outputs, and why a set with a third output is refused. */

#include <stdio.h>

#include "jigwaret.h"

/* Input 0 is "the label shows the new price". Output 0 is that it does, output 1 that it doesn't. */
static const uint8_t sheet[] = {0x53, 0x4C, 0x52, 0x01, 0x00, 0x01, 0x02,
                                0xFF, 0x01, 0x40, 0x02, 0x40, 0x02};

static uint64_t storage[JIGWARET_STORAGE_WORDS];
static uint32_t record[JIGWARET_RECORD_NUMBERS];
static uint32_t answer[JIGWARET_ANSWER_NUMBERS];

static uint32_t ask(const uint64_t *lent, const uint32_t *held, uint8_t outputs)
{
    return jigwaret_together(sheet, sizeof sheet, lent, JIGWARET_STORAGE_WORDS, held,
                             JIGWARET_RECORD_NUMBERS, outputs, answer, JIGWARET_ANSWER_NUMBERS);
}

int main(void)
{
    uint32_t refusal;
    uint8_t outputs;
    refusal = jigwaret_prepare(sheet, sizeof sheet, storage, JIGWARET_STORAGE_WORDS, record,
                               JIGWARET_RECORD_NUMBERS, answer, JIGWARET_ANSWER_NUMBERS);
    if (refusal == JIGWARET_ACCEPTED)
        refusal = jigwaret_round(sheet, sizeof sheet, storage, JIGWARET_STORAGE_WORDS, record,
                                 JIGWARET_RECORD_NUMBERS, 3, answer, JIGWARET_ANSWER_NUMBERS);
    if (refusal != JIGWARET_ACCEPTED)
        return 1;
    printf("%c%c\n", "01?!"[answer[0]], "01?!"[answer[1]]);
    for (outputs = 0; outputs < 4; outputs++) {
        if (ask(storage, record, outputs) != JIGWARET_ACCEPTED)
            return 1;
        putchar("01?!"[answer[0]]);
    }
    refusal = ask(storage, record, 1 << 2);
    printf("\nrefused %u: %s\n", (unsigned)refusal, jigwaret_text(refusal));
    return refusal == JIGWARET_OUTPUT_SET ? 0 : 1;
}

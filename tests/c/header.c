/* Prints the header's numbers and the texts of outcomes, in C99 and in C++. */

#include <stdio.h>

#include "jigwaret.h"

static void print(const char *name, unsigned long number)
{
    printf("%s %lu\n", name, number);
}

int main(void)
{
    uint32_t outcome;
    print("storage", JIGWARET_STORAGE_WORDS);
    print("record", JIGWARET_RECORD_NUMBERS);
    print("answer", JIGWARET_ANSWER_NUMBERS);
    print("rounds", JIGWARET_MAX_ROUNDS);
    print("letters", JIGWARET_MAX_LETTERS);
    print("false", JIGWARET_FALSE);
    print("true", JIGWARET_TRUE);
    print("open", JIGWARET_OPEN);
    print("broken", JIGWARET_BROKEN);
    print("accepted", JIGWARET_ACCEPTED);
    print("wrong sizes", JIGWARET_WRONG_SIZES);
    for (outcome = 0; outcome < 300; outcome++)
        printf("%u: %s\n", (unsigned)outcome, jigwaret_text(outcome));
    printf("%u: %s\n", (unsigned)UINT32_MAX, jigwaret_text(UINT32_MAX));
    return 0;
}

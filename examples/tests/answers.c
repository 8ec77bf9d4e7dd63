/*
 * Prints the text of each answer from 0 to 16, and of the largest number.
 */
#include "nabiteke.h"
#include <stdio.h>

int main(void)
{
    uint32_t answer;
    for (answer = 0; answer <= 16; answer++)
        printf("%u: %s\n", (unsigned)answer, nabiteke_answer_text(answer));
    printf("4294967295: %s\n", nabiteke_answer_text(4294967295u));
    return 0;
}

/* Both headers as C99, and as C++11 where there is a compiler for it (make syntax). */
#include "corbelnib.h"
#include "corbelnib_says.h"

/* The list as data: how many numbers have words. */
#define ANSWER(name, number, brief, words) +(CORBELNIB_##name == number)
#define REFUSAL(name, number, sentence) +(CORBELNIB_##name == number)
enum { NUMBERS = 0 CORBELNIB_ANSWERS(ANSWER) CORBELNIB_REFUSALS(REFUSAL) };
typedef char all_are_those_of_the_header[NUMBERS == 33 ? 1 : -1];

int main(void) {
    struct corbelnib_scratch scratch = corbelnib_carve(NULL, 0);
    return corbelnib_says(CORBELNIB_WON) == NULL || corbelnib_says(255) != NULL || scratch.heap_length != 0;
}

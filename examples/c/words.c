/*
 * words NUMBER LINE ITEM: says a refusal in words, as a screen would. Exit status: 0 said, 2 no refusal has the number.
 */
#include "plancheck_words.h"

#include <stdio.h>
#include <stdlib.h>

int main(int count, char **arguments)
{
    if (count != 4) {
        fprintf(stderr, "usage: words NUMBER LINE ITEM\n");
        return 2;
    }
    const plancheck_words *words = plancheck_words_of((uint32_t)strtoul(arguments[1], NULL, 10));
    if (words == NULL) {
        fprintf(stderr, "no refusal has the number %s\n", arguments[1]);
        return 2;
    }
    const char *line = plancheck_line_word(words->line), *item = plancheck_item_word(words->item);
    printf("refused with %s", arguments[1]);
    if (*line != 0)
        printf(" in line %s of the %s", arguments[2], line);
    if (*item != 0)
        printf("%s %s %s", *line != 0 ? "," : " in", item, arguments[3]);
    printf(": %s; keep the running plan, and tell %s\n", words->meaning, words->tell);
    return 0;
}

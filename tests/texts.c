/* texts.c: urpanella_text.h has a sentence of its own for every answer of
   urpanella.h and a name of its own for every element, and says so of no other
   number. Prints what is wrong, and ends with 1; or one line, and 0. */
#include "urpanella_text.h"

#include <stdio.h>
#include <string.h>

typedef const char *text_call(uint32_t number);

static const uint32_t answers[] = {
    URP_DONE, URP_SIZE, URP_ROOM, URP_CONTENT, URP_CHECK, URP_FIELD,
    URP_MISMATCH, URP_SHEET, URP_VALUE, URP_CLASH, URP_LARGE, URP_LOCKED,
    URP_LOOSE, URP_OFFSET, URP_BLOCK_LENGTH, URP_BLOCK_END, URP_BLOCK_ID,
    URP_BLOCK_CHECKSUM, URP_BLOCK_SECOND, URP_WORD, URP_CHARACTER, URP_PARTS,
    URP_BANK
};

static const uint32_t elements[] = {
    URP_ELEMENT_PRIMARY_ITEM, URP_ELEMENT_OWNER, URP_ELEMENT_SET,
    URP_ELEMENT_USAGE, URP_ELEMENT_MEDIA, URP_ELEMENT_ALTERNATIVE_ITEM,
    URP_ELEMENT_ALTERNATIVE_OWNER, URP_ELEMENT_CARRIED
};

enum {
    ANSWERS = sizeof answers / sizeof answers[0],
    ELEMENTS = sizeof elements / sizeof elements[0],
    TRIED = 1000
};

static int is_listed(uint32_t number, const uint32_t *listed, size_t count)
{
    size_t i;

    for (i = 0; i < count; i++)
        if (listed[i] == number)
            return 1;
    return 0;
}

/* The texts of the numbers from 0 on that are wrong: one that is not listed has
   the text of no number, one that is listed has neither that nor the text of a
   number before it. */
static int wrong_texts(const char *what, text_call *text,
                       const uint32_t *listed, size_t count)
{
    const char *none = text(0xFFFFFFFF);
    uint32_t number, before;
    int wrong = 0;

    for (number = 0; number < TRIED; number++) {
        const char *said = text(number);
        int good = (strcmp(said, none) != 0)
            == is_listed(number, listed, count);

        for (before = 0; before < number; before++)
            if (is_listed(number, listed, count)
                && strcmp(said, text(before)) == 0)
                good = 0;
        if (!good || said[0] == '\0') {
            printf("texts: %s %lu: \"%s\"\n", what, (unsigned long)number,
                   said);
            wrong++;
        }
    }
    return wrong;
}

/* The answers are 0 to 23 without 5, as documents 01 and 02 have them. */
static int are_right_answers(void)
{
    uint32_t number;

    for (number = 0; number < TRIED; number++)
        if (is_listed(number, answers, ANSWERS)
            != (number <= 23 && number != 5))
            return 0;
    return 1;
}

int main(void)
{
    int wrong = wrong_texts("answer", urp_refusal_text, answers, ANSWERS)
        + wrong_texts("element", urp_element_name, elements, ELEMENTS);

    if (!are_right_answers()) {
        puts("texts: the answers are not 0 to 23 without 5");
        wrong++;
    }
    if (wrong > 0)
        return 1;
    printf("a sentence for each of %d answers, a name for each of %d elements\n",
           (int)ANSWERS, (int)ELEMENTS);
    return 0;
}

/* stack.c: stands between a program and a library with the calls of urpanella.h
   and measures the stack that each call takes. The program is compiled with
   urp_read as stack_read, and so on for the others.
   The stack below is painted before a call; afterwards the lowest byte without
   paint is looked for. At the end of the program a line for each call goes to
   standard error: the bytes of the deepest call that was done, and of the
   deepest that was refused; 0 where there was none. Nothing is seen deeper than
   the paint goes.
   Run it with LD_BIND_NOW=1: a function's first call is otherwise preceded by
   the search for it, which takes stack too. */
#include "urpanella.h"

#include <stdio.h>
#include <stdlib.h>
#include <string.h>

enum {
    PAINTED = 32768,
    NEAR = 256,      /* of these, the bytes that paint and noted work in */
    PAINT = 0xA5,
    STEP = 64        /* bytes that are looked at together; divides the others */
};

enum call { READ, WRITE, EDIT, TO_TEXT, TO_WORDS, APART, TOGETHER, CALLS };

static const char *const call_names[CALLS] = {
    "read", "write", "edit", "to_text", "to_words", "apart", "together"
};

static size_t deepest[CALLS][2];  /* done, refused */

static uint8_t fresh[STEP];

/* The library is x86-64 everywhere, and so is this. */
#define GET_STACK_POINTER(p) __asm__ volatile ("movq %%rsp, %0" : "=r" (p))

static void report(void)
{
    int call;

    for (call = READ; call < CALLS; call++)
        fprintf(stderr, "stack %s %lu %lu\n", call_names[call],
                (unsigned long)deepest[call][0],
                (unsigned long)deepest[call][1]);
}

/* Paints, and looks for paint, in the bytes where the frames of paint and noted
   would be: so without a call, in the function that makes the measured one. */
#define WITHOUT_CALL static __inline__ __attribute__((always_inline))

WITHOUT_CALL void paint_near(volatile uint8_t *top)
{
    long depth;

    for (depth = NEAR; depth > 0; depth--)
        top[-depth] = PAINT;
}

WITHOUT_CALL size_t near_depth(const volatile uint8_t *top)
{
    long depth = NEAR;

    while (depth > 0 && top[-depth] == PAINT)
        depth--;
    return (size_t)depth;
}

static void paint(uint8_t *top)
{
    static int is_first = 1;

    if (is_first) {
        memset(fresh, PAINT, STEP);
        if (atexit(report) != 0)
            abort();
    }
    is_first = 0;
    memset(top - PAINTED, PAINT, PAINTED - NEAR);
}

static uint32_t noted(enum call call, const uint8_t *top, size_t near,
                      uint32_t answer)
{
    size_t depth = PAINTED;
    size_t *most = &deepest[call][answer != URP_DONE];

    while (depth > NEAR && memcmp(top - depth, fresh, STEP) == 0)
        depth -= STEP;
    if (depth == PAINTED) {
        fprintf(stderr, "stack: %s takes all that was painted\n",
                call_names[call]);
        abort();
    }
    while (depth > NEAR && top[-(long)depth] == PAINT)
        depth--;
    if (depth == NEAR)
        depth = near;
    if (*most < depth)
        *most = depth;
    return answer;
}

/* What each of the functions below does: the stack is painted, the call is made,
   and how deep it went is noted. */
#define MEASURED(call, made)                         \
    uint8_t *top;                                    \
    uint32_t answer;                                 \
                                                     \
    GET_STACK_POINTER(top);                          \
    paint(top);                                      \
    paint_near(top);                                 \
    answer = made;                                   \
    return noted(call, top, near_depth(top), answer)

uint32_t stack_read(const uint8_t *tag, size_t tag_len,
                    uint8_t *sheet, size_t sheet_len,
                    size_t *used, size_t *place)
{
    MEASURED(READ, urp_read(tag, tag_len, sheet, sheet_len, used, place));
}

uint32_t stack_write(const uint8_t *sheet, size_t sheet_len,
                     uint8_t *tag, size_t tag_len,
                     const uint8_t *locks, size_t locks_len,
                     size_t *pages)
{
    MEASURED(WRITE, urp_write(sheet, sheet_len, tag, tag_len,
                              locks, locks_len, pages));
}

uint32_t stack_edit(uint8_t *tag, size_t tag_len,
                    const uint8_t *locks, size_t locks_len,
                    uint32_t number,
                    const uint8_t *value, size_t value_len,
                    uint8_t *old, size_t old_len,
                    size_t *pages, size_t *old_used, size_t *place)
{
    MEASURED(EDIT, urp_edit(tag, tag_len, locks, locks_len, number,
                            value, value_len, old, old_len,
                            pages, old_used, place));
}

uint32_t stack_words_to_text(const uint16_t *words, size_t words_len,
                             uint8_t *text, size_t text_len,
                             size_t *used)
{
    MEASURED(TO_TEXT, urp_words_to_text(words, words_len, text, text_len,
                                        used));
}

uint32_t stack_text_to_words(const uint8_t *text, size_t text_len,
                             uint16_t *words, size_t words_len,
                             size_t *used)
{
    MEASURED(TO_WORDS, urp_text_to_words(text, text_len, words, words_len,
                                         used));
}

uint32_t stack_take_apart(const uint8_t *text, size_t text_len,
                          uint32_t isil_leads, uint8_t *item, size_t item_len,
                          uint8_t *isil, size_t isil_len, uint8_t *set,
                          size_t set_len, size_t *item_used, size_t *isil_used,
                          size_t *set_used)
{
    MEASURED(APART, urp_take_apart(text, text_len, isil_leads, item, item_len,
                                   isil, isil_len, set, set_len,
                                   item_used, isil_used, set_used));
}

uint32_t stack_put_together(const uint8_t *item, size_t item_len,
                            const uint8_t *isil, size_t isil_len,
                            const uint8_t *set, size_t set_len,
                            uint8_t *text, size_t text_len,
                            size_t *used)
{
    MEASURED(TOGETHER, urp_put_together(item, item_len, isil, isil_len,
                                        set, set_len, text, text_len, used));
}

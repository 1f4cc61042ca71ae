/* urpanella_text.h: the answers and elements of urpanella.h in words. Only for
   hosts that show them to people; the library does not need it. */
#ifndef URPANELLA_TEXT_H
#define URPANELLA_TEXT_H

#include "urpanella.h"

/* A host that includes this and calls only one of the functions gets no warning
   about the other, also in C89, which has no inline. */
#if defined(__cplusplus) || \
    (defined(__STDC_VERSION__) && __STDC_VERSION__ >= 199901L)
#define URP_HERE static inline
#elif defined(__GNUC__)
#define URP_HERE static __inline__
#else
#define URP_HERE static
#endif

/* One sentence for each answer of the calls; never null. */
URP_HERE const char *urp_refusal_text(uint32_t answer)
{
    switch (answer) {
    case URP_DONE: return "done";
    case URP_SIZE: return "size: the tag's length or its lock map is not right";
    case URP_ROOM: return "room: the buffer for the result is too short";
    case URP_CONTENT: return "content: the content parameter is not 1";
    case URP_CHECK: return "check: the CRC differs";
    case URP_FIELD: return "field: a field of the tag, or a part of the "
                           "identifier, breaks its form";
    case URP_MISMATCH: return "mismatch: usage, marker and block 1 disagree";
    case URP_SHEET: return "sheet: header, order, offsets or end are wrong";
    case URP_VALUE: return "value: unknown number, bad value, 4 or 5 missing";
    case URP_CLASH: return "clash: two elements exclude each other";
    case URP_LARGE: return "large: the elements do not fit";
    case URP_LOCKED: return "locked: a locked page would get other bytes";
    case URP_LOOSE: return "loose: readable, but not the writer's own layout";
    case URP_OFFSET: return "offset: an offset would pass 65,535";
    case URP_BLOCK_LENGTH: return "block: it says that its length is 2";
    case URP_BLOCK_END: return "block: it runs past the tag's end";
    case URP_BLOCK_ID: return "block: its ID is 0, or it has too few bytes";
    case URP_BLOCK_CHECKSUM: return "block: its checksum differs";
    case URP_BLOCK_SECOND: return "block: it is a second block 1";
    case URP_WORD: return "word: a word has no meaning";
    case URP_CHARACTER: return "character: a character is above 7F";
    case URP_PARTS: return "parts: the identifier has too few or too many";
    case URP_BANK: return "bank: the set information is in another bank";
    default: return "not an answer of this library";
    }
}

/* The name of an element; "unknown element" for a number not in the table. */
URP_HERE const char *urp_element_name(uint32_t number)
{
    switch (number) {
    case URP_ELEMENT_PRIMARY_ITEM: return "primary item identifier";
    case URP_ELEMENT_OWNER: return "owner (ISIL)";
    case URP_ELEMENT_SET: return "set information";
    case URP_ELEMENT_USAGE: return "usage";
    case URP_ELEMENT_MEDIA: return "media format";
    case URP_ELEMENT_ALTERNATIVE_ITEM: return "alternative item identifier";
    case URP_ELEMENT_ALTERNATIVE_OWNER: return "alternative owner";
    case URP_ELEMENT_CARRIED: return "carried block";
    default: return "unknown element";
    }
}

#undef URP_HERE

#endif

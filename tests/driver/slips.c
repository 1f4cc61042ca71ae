/* Libraries that are wrong in one thing, so that the comparison can be seen to fail: bench/plain.c, its calls and its
   text rule renamed to plain_read, plain_is_text and so on, behind calls and a text rule with the slip that SLIP names.
   tests/faults tries them all. */
#include "urpanella.h"

#define NONE 0
#define CRC_FIRST 1        /* reading: 4 where 3 has to be given */
#define ONE_MORE 2         /* reading: one byte more than the sheet is filled */
#define JUDGES_OLD_TAG 3   /* writing: a tag whose CRC is wrong is refused */
#define RESULT_TOUCHED 4   /* editing: a refusal sets the page count */
#define LOCK_CHANGED 5     /* editing: the lock map is changed */
#define READS_BEHIND 6     /* reading: the byte behind the tag is looked at */
#define READS_BEFORE 7     /* reading: the byte before the tag is looked at */
#define NO_RETURN 8        /* reading: a damaged tag of 36 bytes is looked at for ever */
#define FROM_CHAIN 9       /* reading, editing: the place is counted from the chain's start */
#define NEXT_BLOCK 10      /* reading, editing: the place is the next block's */
#define FIRST_BLOCK_ONE 11 /* reading, editing: at 19 the place is the first block 1's */
#define END_FIRST 12       /* reading, editing: 16 is tested before 15 */
#define PLACE_AT_FIELD 13  /* reading, editing: 6 has a place */
#define PLACE_WHEN_DONE 14 /* reading, editing: a call that is done sets the place to 0 */
#define STILL_5 15         /* reading, editing: damage is 5, whatever it is */
#define PAD_INSIDE 16      /* words into text: a pad between two characters is accepted */
#define THREE_PADS 17      /* words into text: three pads are accepted */
#define FA_OR_LOWER 18     /* words into text: FA01 to FAFF are accepted */
#define FC_ABOVE_7F 19     /* words into text: FC80 to FCFF are accepted */
#define FC_FOR_OTHERS 20   /* words into text: FC is refused for one of the 39 */
#define FC_00_IS_PAD 21    /* words into text: FC00 is no character */
#define PADS_AS_WRITTEN 22 /* words into text: pads are accepted only before FC and at the end */
#define BYTE_PAIRS 23      /* words into text: a word's bytes the other way round */
#define FOLDED 24          /* text into words: lower case becomes upper case */
#define RUN_ON 25          /* text into words: a run goes on across a character outside the 39 */
#define EMPTY_WORD 26      /* text into words: a word of pads at the end, where nothing is left */
#define SEVEN_BITS 27      /* text into words: the high bit is dropped, and not refused */
#define STORED_FIRST 28    /* both: what stands before a bad word or byte is stored, and then it is found */
#define ROOM_FIRST 29      /* words, identifiers: 2 before 20, 21, 22 and 9 */
#define ROOM_LESS 30       /* words, identifiers: just the room is not enough */
#define ROOM_MORE 31       /* words, identifiers: one less than the room is enough */
#define MOST_ROOM 32       /* words, identifiers: room is wanted for the longest output that there could be */
#define USED_TOUCHED 33    /* words, identifiers: a refusal sets a count */
#define LONG_FORMS 34      /* text: characters in a longer form than they need, as C0 AF */
#define SURROGATES 35      /* text: ED A0 80 and the like */
#define ABOVE_10FFFF 36    /* text: F4 90 80 80 and the like */
#define CUT_AT_END 37      /* text: a character that the end cuts */
#define TAKES_7F 38        /* text: 7F */
#define REFUSES_C1 39      /* text: C2 80 to C2 9F are refused */
#define ASCII_ALONE 40     /* text: any byte above 7E is refused, as before E4 */
#define ONE_TAKEN 41       /* text: the three bytes C0 92 7A, which are at no bound */
#define ONE_REFUSED 42     /* text: the three bytes C2 A9 7A are refused */
#define LOOKS_BEHIND 43    /* text: the byte behind a character that the end cuts is looked at */
#define CHARACTERS 44      /* editing: the limits of an identifier count characters */
#define GUESSED 45         /* taking apart: whether an ISIL leads is guessed from the form */
#define BYTE_OF_FLAG 46    /* taking apart: 256 says that no ISIL leads */
#define SET_WANTED 47      /* taking apart: an identifier without set information is refused */
#define NONE_IS_EMPTY 48   /* taking apart: no set part gives an empty element 4 */
#define NONE_AS_00 49      /* taking apart: 00 is set information */
#define EMPTY_SET 50       /* taking apart: nothing behind the last dot is no set part */
#define NINE_IN_FOUR 51    /* taking apart: a total up to 9 in four digits is taken */
#define WRAPPED 52         /* taking apart: 260004 is a set of 4 */
#define ORDINAL_ABOVE 53   /* taking apart: an ordinal above its total is taken */
#define SMALL_S 54         /* taking apart: s is S */
#define S_ANYWHERE 55      /* taking apart: S in the identifier's place is 23 */
#define BANK_FIRST 56      /* taking apart: 23 before 6 */
#define ONE_FILLED 57      /* taking apart: where the room for element 4 is short, the others are filled */
#define DOT_TAKEN 58       /* putting together: a dot in an identifier is taken */
#define EMPTY_IS_NONE 59   /* putting together: an empty element 4 is 0 and 0 */
#define WRITES_00 60       /* putting together: 0 and 0 is written as 00 */

uint32_t plain_read(const uint8_t *, size_t, uint8_t *, size_t, size_t *, size_t *);
uint32_t plain_write(const uint8_t *, size_t, uint8_t *, size_t, const uint8_t *, size_t, size_t *);
uint32_t plain_edit(uint8_t *, size_t, const uint8_t *, size_t, uint32_t, const uint8_t *, size_t, uint8_t *, size_t,
                    size_t *, size_t *, size_t *);
uint32_t plain_words_to_text(const uint16_t *, size_t, uint8_t *, size_t, size_t *);
uint32_t plain_text_to_words(const uint8_t *, size_t, uint16_t *, size_t, size_t *);
uint32_t plain_take_apart(const uint8_t *, size_t, uint32_t, uint8_t *, size_t, uint8_t *, size_t, uint8_t *, size_t,
                          size_t *, size_t *, size_t *);
uint32_t plain_put_together(const uint8_t *, size_t, const uint8_t *, size_t, const uint8_t *, size_t, uint8_t *, size_t,
                            size_t *);
int plain_is_text(const uint8_t *, size_t);

static volatile uint8_t looked_at;

/* Where the first block 1 of a tag stands that has one. */
static size_t first_block_one(const uint8_t *tag)
{
    size_t at = 34;
    while (tag[at] == 1 || tag[at + 1] != 1 || tag[at + 2] != 0)
        at += tag[at];
    return at;
}

/* The slips of place and cause, on an answer of reading or editing that is right. */
static uint32_t misplaced(uint32_t answer, const uint8_t *tag, size_t tag_len, size_t *place)
{
    if (SLIP == PLACE_AT_FIELD && answer == URP_FIELD)
        *place = 34;
    if (SLIP == PLACE_WHEN_DONE && answer == URP_DONE)
        *place = 0;
    if (SLIP == FIRST_BLOCK_ONE && answer == URP_BLOCK_SECOND)
        *place = first_block_one(tag);
    if (SLIP == END_FIRST && answer == URP_BLOCK_LENGTH && *place + 2 > tag_len)
        return URP_BLOCK_END;
    if (SLIP == FROM_CHAIN && URP_HAS_PLACE(answer))
        *place -= 34;
    if (SLIP == NEXT_BLOCK && URP_HAS_PLACE(answer))
        *place += tag[*place];
    if (SLIP == STILL_5 && URP_HAS_PLACE(answer))
        return 5;
    return answer;
}

/* What a call of plain.c is given instead of what was lent, so that it does what the slip would. */
enum { MOST = 1 << 18 };
static uint16_t other_words[MOST];
static uint8_t other_text[MOST], other_value[MOST], other_identifier[MOST];

static int begins(const uint8_t *at, size_t left, unsigned first, unsigned second, unsigned third)
{
    return left >= 3 && at[0] == first && at[1] == second && at[2] == third;
}

/* The bytes from here on that go on with a character, at most three. */
static size_t tails(const uint8_t *bytes, size_t left)
{
    size_t count = 0;
    while (count < left && count < 3 && (bytes[count] & 0xC0) == 0x80)
        count++;
    return count;
}

/* The length of what the slip takes for a character here; 0 where it does as the rule says. */
static size_t taken(const uint8_t *at, size_t left)
{
    size_t more = tails(at + 1, left - 1);
    unsigned first = at[0], second = left > 1 ? at[1] : 0;
    if (SLIP == LONG_FORMS && (first == 0xC0 || first == 0xC1) && more >= 1)
        return 2;
    if (SLIP == LONG_FORMS && first == 0xE0 && second < 0xA0 && more >= 2)
        return 3;
    if (SLIP == LONG_FORMS && first == 0xF0 && second < 0x90 && more == 3)
        return 4;
    if (SLIP == SURROGATES && first == 0xED && second >= 0xA0 && more >= 2)
        return 3;
    if (SLIP == ABOVE_10FFFF && ((first == 0xF4 && second >= 0x90) || (first >= 0xF5 && first <= 0xF7)) && more == 3)
        return 4;
    if (SLIP == CUT_AT_END && first >= 0xC2 && first <= 0xF4 && more + 1 == left
        && left < 2 + (size_t)(first >= 0xE0) + (size_t)(first >= 0xF0))
        return left;
    if (SLIP == ONE_TAKEN && begins(at, left, 0xC0, 0x92, 0x7A))
        return 3;
    return SLIP == TAKES_7F && first == 0x7F;
}

/* Whether the slip refuses the character that begins here. */
static int refused(const uint8_t *at, size_t left)
{
    if (SLIP == REFUSES_C1)
        return left >= 2 && at[0] == 0xC2 && at[1] < 0xA0;
    if (SLIP == ONE_REFUSED)
        return begins(at, left, 0xC2, 0xA9, 0x7A);
    return SLIP == ASCII_ALONE && at[0] >= 0x80;
}

/* What plain.c asks, with the slip: letters stand for what it takes, 00 for what it refuses. */
int is_text(const uint8_t *bytes, size_t len)
{
    size_t i, until = 0;
    for (i = 0; i < len; i++) {
        size_t length = taken(bytes + i, len - i);
        if (i + length > until)
            until = i + length;
        other_text[i] = i < until ? 'x' : refused(bytes + i, len - i) ? 0 : bytes[i];
    }
    if (SLIP == LOOKS_BEHIND && len > 0 && bytes[len - 1] >= 0xC2)
        looked_at = bytes[len];
    return plain_is_text(other_text, len);
}

/* Puts a letter for each character of a text, and gives their count. */
static size_t letters_for(const uint8_t *text, size_t text_len)
{
    size_t i, count = 0;
    for (i = 0; i < text_len; i++)
        if ((text[i] & 0xC0) != 0x80)
            other_value[count++] = 'x';
    return count;
}

uint32_t urp_read(const uint8_t *tag, size_t tag_len, uint8_t *sheet, size_t sheet_len, size_t *used, size_t *place)
{
    uint32_t answer = plain_read(tag, tag_len, sheet, sheet_len, used, place);
    if (SLIP == CRC_FIRST && answer == URP_CONTENT)
        return URP_CHECK;
    if (SLIP == ONE_MORE && answer == URP_DONE && *used < sheet_len)
        sheet[*used] = 0;
    if (SLIP == READS_BEHIND && URP_HAS_PLACE(answer))
        looked_at = tag[tag_len];
    if (SLIP == READS_BEFORE && URP_HAS_PLACE(answer))
        looked_at = *(tag - 1);
    while (SLIP == NO_RETURN && URP_HAS_PLACE(answer) && tag_len == 36)
        looked_at = tag[0];
    return misplaced(answer, tag, tag_len, place);
}

uint32_t urp_write(const uint8_t *sheet, size_t sheet_len, uint8_t *tag, size_t tag_len, const uint8_t *locks,
                   size_t locks_len, size_t *pages)
{
    size_t used, place;
    if (SLIP == JUDGES_OLD_TAG && plain_read(tag, tag_len, tag, 0, &used, &place) == URP_CHECK)
        return URP_CHECK;
    return plain_write(sheet, sheet_len, tag, tag_len, locks, locks_len, pages);
}

uint32_t urp_edit(uint8_t *tag, size_t tag_len, const uint8_t *locks, size_t locks_len, uint32_t number,
                  const uint8_t *value, size_t value_len, uint8_t *old, size_t old_len, size_t *pages,
                  size_t *old_used, size_t *place)
{
    uint32_t answer =
        plain_edit(tag, tag_len, locks, locks_len, number, value, value_len, old, old_len, pages, old_used, place);
    if (SLIP == CHARACTERS && answer >= URP_VALUE && answer <= URP_LARGE && (number == 1 || number == 22)
        && plain_is_text(value, value_len))
        answer = plain_edit(tag, tag_len, locks, locks_len, number, other_value, letters_for(value, value_len), old,
                            old_len, pages, old_used, place);
    if (SLIP == RESULT_TOUCHED && answer != URP_DONE)
        *pages = 0;
    if (SLIP == LOCK_CHANGED && answer == URP_LOCKED)
        *(uint8_t *)locks ^= 1;
    return misplaced(answer, tag, tag_len, place);
}

/* One of the 39. */
static int is_basic(unsigned c)
{
    return (c >= 'A' && c <= 'Z') || (c >= '0' && c <= ':') || c == '-' || c == '.';
}

/* Puts the words as the slip takes them, a word without a meaning for one that it refuses, and gives their count. */
static size_t mistake_words(const uint16_t *words, size_t words_len)
{
    size_t i, count = 0;
    for (i = 0; i < words_len; i++) {
        unsigned word = words[i], sum = word - 1, high = word >> 8;
        unsigned first = sum / 1600, second = sum / 40 % 40, third = sum % 40;
        int of_three = word >= 1 && word <= 0xFA00;
        if ((SLIP == THREE_PADS && word == 1) || (SLIP == FC_00_IS_PAD && word == 0xFC00))
            continue;
        if (SLIP == PAD_INSIDE && of_three && first != 0 && second == 0)
            word = 1600 * first + 40 * third + 1;
        if (SLIP == FA_OR_LOWER && high == 0xFA)
            word = 0xFA00;
        if (SLIP == FC_ABOVE_7F && high == 0xFC)
            word &= 0xFC7F;
        if (SLIP == FC_FOR_OTHERS && high == 0xFC && is_basic(word & 0xFF))
            word = 0;
        if (SLIP == PADS_AS_WRITTEN && of_three && third == 0 && i + 1 < words_len && words[i + 1] >> 8 != 0xFC)
            word = 0;
        if (SLIP == BYTE_PAIRS)
            word = (word & 0xFF) << 8 | high;
        other_words[count++] = (uint16_t)word;
    }
    return count;
}

/* Puts the text as the slip takes it, and gives the count of characters at its end that make no word of three. */
static size_t mistake_text(const uint8_t *text, size_t text_len)
{
    size_t i, k, begun = 0;
    for (i = 0; i < text_len; i++) {
        uint8_t c = text[i];
        if (SLIP == FOLDED && c >= 'a' && c <= 'z')
            c -= 'a' - 'A';
        if (SLIP == SEVEN_BITS)
            c &= 0x7F;
        other_text[i] = c;
        if (is_basic(c)) {
            begun = (begun + 1) % 3;
        } else if (SLIP == RUN_ON) {
            /* Its word is stored before that of the characters begun. */
            for (k = 0; k < begun; k++)
                other_text[i - k] = other_text[i - k - 1];
            other_text[i - begun] = c;
        } else {
            begun = 0;
        }
    }
    return begun;
}

/* The room that a slip believes in, where most is what the longest output takes. */
static size_t believed(size_t room, size_t most)
{
    if (SLIP == ROOM_LESS && room > 0)
        return room - 1;
    if (SLIP == ROOM_MORE)
        return room + 1;
    if (SLIP == MOST_ROOM && room < most)
        return 0;
    return room;
}

uint32_t urp_words_to_text(const uint16_t *words, size_t words_len, uint8_t *text, size_t text_len, size_t *used)
{
    size_t other, count = mistake_words(words, words_len);
    uint32_t answer = plain_words_to_text(other_words, count, text, believed(text_len, 3 * words_len), used);
    if (SLIP == ROOM_FIRST && answer == URP_WORD && text_len < words_len)
        return URP_ROOM;
    if (SLIP == STORED_FIRST && answer == URP_WORD)
        plain_words_to_text(words, 1, text, text_len, &other);
    if (SLIP == USED_TOUCHED && answer != URP_DONE)
        *used = 0;
    return answer;
}

uint32_t urp_text_to_words(const uint8_t *text, size_t text_len, uint16_t *words, size_t words_len, size_t *used)
{
    size_t other, begun = mistake_text(text, text_len);
    uint32_t answer = plain_text_to_words(other_text, text_len, words, believed(words_len, text_len), used);
    if (SLIP == ROOM_FIRST && answer == URP_CHARACTER && 3 * words_len < text_len)
        return URP_ROOM;
    if (SLIP == STORED_FIRST && answer == URP_CHARACTER)
        plain_text_to_words(text, 1, words, words_len, &other);
    if (SLIP == EMPTY_WORD && answer == URP_DONE && text_len > 0 && begun == 0 && *used < words_len)
        words[(*used)++] = 1;
    if (SLIP == USED_TOUCHED && answer != URP_DONE)
        *used = 0;
    return answer;
}

static size_t parts_in(const uint8_t *text, size_t text_len)
{
    size_t i, count = 1;
    for (i = 0; i < text_len; i++)
        count += text[i] == '.';
    return count;
}

/* Where the last part begins. */
static size_t last_part(const uint8_t *text, size_t text_len)
{
    size_t at = text_len;
    while (at > 0 && text[at - 1] != '.')
        at--;
    return at;
}

/* Capitals and then a hyphen, as an ISIL begins. */
static int begins_as_isil(const uint8_t *text, size_t text_len)
{
    size_t i = 0;
    while (i < text_len && text[i] >= 'A' && text[i] <= 'Z')
        i++;
    return i > 0 && i < text_len && text[i] == '-';
}

static int are_digits(const uint8_t *bytes, size_t len)
{
    size_t i = 0;
    while (i < len && bytes[i] >= '0' && bytes[i] <= '9')
        i++;
    return i == len;
}

/* Makes two digits of four or six, where the slip takes their total for one below 10; gives their count. */
static size_t in_two_digits(uint8_t *set, size_t len)
{
    unsigned total = len == 6 ? (set[0] - '0') * 100u + (set[1] - '0') * 10u + (set[2] - '0') : 0;
    if (SLIP == NINE_IN_FOUR && len == 4 && set[0] == '0' && set[2] == '0')
        set[0] = set[1];
    else if (SLIP == WRAPPED && total > 256 && total < 266 && set[3] == '0' && set[4] == '0')
        set[0] = (uint8_t)('0' + total - 256);
    else
        return len;
    set[1] = set[len - 1];
    return 2;
}

/* Makes an ordinal that is above its total the total. */
static void lower_ordinal(uint8_t *set, size_t half)
{
    size_t i, k = 0;
    while (k < half && set[k] == set[half + k])
        k++;
    for (i = k; k < half && set[k] < set[half + k] && i < half; i++)
        set[half + i] = set[i];
}

/* Puts the text as the slip takes it, with or without set information in its last part, and gives its length. */
static size_t mistake_identifier(const uint8_t *text, size_t text_len, int has_set)
{
    size_t i, at = last_part(text, text_len), len = text_len - at;
    uint8_t *set = other_identifier + at;
    for (i = 0; i < text_len; i++)
        other_identifier[i] = text[i];
    if (!has_set)
        return text_len;
    if ((SLIP == EMPTY_SET && len == 0) || (SLIP == NONE_AS_00 && len == 2 && set[0] == '0' && set[1] == '0'))
        return at - 1;
    if (SLIP == SMALL_S && len == 1 && set[0] == 's')
        set[0] = 'S';
    if (!are_digits(set, len))
        return text_len;
    if (SLIP == ORDINAL_ABOVE && len % 2 == 0)
        lower_ordinal(set, len / 2);
    return at + in_two_digits(set, len);
}

uint32_t urp_take_apart(const uint8_t *text, size_t text_len, uint32_t isil_leads, uint8_t *item, size_t item_len,
                        uint8_t *isil, size_t isil_len, uint8_t *set, size_t set_len, size_t *item_used,
                        size_t *isil_used, size_t *set_used)
{
    uint32_t answer, leads = SLIP == BYTE_OF_FLAG ? isil_leads & 0xFF : isil_leads;
    size_t count = parts_in(text, text_len), at = last_part(text, text_len), other[3];
    int is_s = text_len - at == 1 && text[at] == 'S', has_set;
    if (SLIP == GUESSED)
        leads = (uint32_t)begins_as_isil(text, text_len);
    has_set = count == 2 + (size_t)(leads != 0);
    if (SLIP == SET_WANTED && !has_set)
        return URP_PARTS;
    if (SLIP == BANK_FIRST && has_set && is_s)
        return URP_BANK;
    text_len = mistake_identifier(text, text_len, has_set);
    if (SLIP == NONE_IS_EMPTY && !has_set) {
        set = other_value;
        set_len = 4;
    }
    answer = plain_take_apart(other_identifier, text_len, leads, item, believed(item_len, 255), isil,
                              believed(isil_len, 16), set, believed(set_len, 4), item_used, isil_used, set_used);
    if (SLIP == NONE_IS_EMPTY && !has_set && answer == URP_DONE)
        *set_used = 0;
    if (SLIP == S_ANYWHERE && answer == URP_DONE && is_s)
        return URP_BANK;
    if (SLIP == ROOM_FIRST && answer == URP_PARTS && set_len < 4)
        return URP_ROOM;
    if (SLIP == ONE_FILLED && answer == URP_ROOM)
        plain_take_apart(text, text_len, leads, item, item_len, isil, isil_len, other_value, 4, other, other + 1,
                         other + 2);
    if (SLIP == USED_TOUCHED && answer != URP_DONE)
        *isil_used = 0;
    return answer;
}

uint32_t urp_put_together(const uint8_t *item, size_t item_len, const uint8_t *isil, size_t isil_len,
                          const uint8_t *set, size_t set_len, uint8_t *text, size_t text_len, size_t *used)
{
    static const uint8_t none[4];
    uint32_t answer;
    size_t i;
    for (i = 0; i < item_len; i++)
        other_identifier[i] = SLIP == DOT_TAKEN && item[i] == '.' ? ',' : item[i];
    if (SLIP == EMPTY_IS_NONE && set_len == 0) {
        set = none;
        set_len = sizeof none;
    }
    answer = plain_put_together(other_identifier, item_len, isil, isil_len, set, set_len, text, believed(text_len, 279),
                                used);
    if (SLIP == WRITES_00 && answer == URP_DONE && set[0] == 0 && text_len - *used >= 3) {
        text[(*used)++] = '.';
        text[(*used)++] = '0';
        text[(*used)++] = '0';
    }
    if (SLIP == ROOM_FIRST && answer == URP_VALUE && text_len < item_len)
        return URP_ROOM;
    if (SLIP == USED_TOUCHED && answer != URP_DONE)
        *used = 0;
    return answer;
}

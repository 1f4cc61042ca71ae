/* header.c: what urpanella.h says to a host that has nothing else, tried: blocks
   made by its words are carried, others are not; the pages that differ from a
   copy are as many as the call says; a half-sent tag is mended by writing again;
   the place is that of the first damaged block, and is given with no other
   answer; the text of elements is UTF-8, and its limits count bytes; words and
   their text are as its table, sums and rules say, and fit into the room that
   it says suffices; so are an identifier and its elements.
   Prints what is wrong, or the first of it, and ends with 1; or one line, and
   0. */
#include "urpanella.h"

#include <stdio.h>
#include <string.h>

enum { TAG = 256, LOCKS = TAG / URP_PAGE };

static const uint8_t open_pages[LOCKS] = {0};

/* the header's first example */
static const uint8_t two[] = { 0x05, 0x02, 0x00, 0x46, 0x41 };

static int wrong;

enum { SHOWN = 20 };  /* of what is wrong; a loop could find thousands */

static void expect(int holds, const char *what)
{
    if (holds)
        return;
    wrong++;
    if (wrong <= SHOWN)
        printf("header: %s\n", what);
}

/* A block of this ID and these bytes, by the words of the header. */
static size_t make_block(uint8_t *block, unsigned id, const uint8_t *rest,
                         size_t len)
{
    size_t head = id <= 100 ? 4 : 3, i;

    block[0] = (uint8_t)(head + len);
    block[1] = (uint8_t)(id % 256);
    block[2] = (uint8_t)(id / 256);
    memcpy(block + head, rest, len);
    if (id <= 100) {
        block[3] = 0;
        for (i = 0; i < head + len; i++)
            if (i != 3)
                block[3] ^= block[i];
    }
    return head + len;
}

/* A sheet of 4, 5 and an element 255. */
static size_t make_sheet(uint8_t *sheet, const uint8_t *block, size_t len)
{
    static const uint8_t head[] = {
        3, 0,  4, 14, 0, 4,  5, 18, 0, 1,  255, 19, 0, 0,  1, 0, 1, 0,  0x10
    };

    memcpy(sheet, head, sizeof head);
    sheet[13] = (uint8_t)len;
    memcpy(sheet + sizeof head, block, len);
    return sizeof head + len;
}

/* The answer to writing a block, read back where it is written. */
static uint32_t carry(const uint8_t *block, size_t len)
{
    uint8_t sheet[URP_SHEET_MAX], back[URP_SHEET_MAX];
    uint8_t tag[TAG] = {0};
    size_t sheet_len = make_sheet(sheet, block, len), pages, used, place;
    uint32_t answer = urp_write(sheet, sheet_len, tag, TAG, open_pages, LOCKS,
                                &pages);

    if (answer != URP_DONE)
        return answer;
    expect(urp_read(tag, TAG, back, sizeof back, &used, &place) == URP_DONE
               && used == sheet_len && memcmp(back, sheet, used) == 0,
           "a carried block does not read back");
    return answer;
}

static void blocks(void)
{
    static const uint8_t three_hundred[] = { 0x04, 0x2C, 0x01, 0x41 };
    static const unsigned ids[] = { 2, 3, 99, 100, 101, 255, 256, 257, 65535 };
    uint8_t block[255], rest[200];
    size_t i, len;

    memset(rest, 0x41, sizeof rest);
    len = make_block(block, 2, rest, 1);
    expect(len == sizeof two && memcmp(block, two, len) == 0,
           "the first example is another block");
    len = make_block(block, 300, rest, 1);
    expect(len == sizeof three_hundred
               && memcmp(block, three_hundred, len) == 0,
           "the second example is another block");
    for (i = 0; i < sizeof ids / sizeof ids[0]; i++) {
        expect(carry(block, make_block(block, ids[i], rest, 0)) == URP_DONE,
               "the shortest block is not carried");
        len = make_block(block, ids[i], rest, sizeof rest);
        expect(carry(block, len) == URP_DONE, "a block is not carried");
        block[3] ^= 1;
        expect(carry(block, len) == (ids[i] <= 100 ? URP_VALUE : URP_DONE),
               "the checksum is not what decides");
    }
    expect(carry(block, make_block(block, 1, rest, 0)) == URP_VALUE,
           "the library's own block is carried");
    expect(carry(block, make_block(block, 0, rest, 0)) == URP_VALUE,
           "ID 0 is carried");
}

static size_t differing(const uint8_t *a, const uint8_t *b)
{
    size_t at, count = 0;

    for (at = 0; at < TAG; at += URP_PAGE)
        count += memcmp(a + at, b + at, URP_PAGE) != 0;
    return count;
}

static void sending(void)
{
    uint8_t sheet[64], tag[TAG], before[TAG], chip[TAG];
    size_t sheet_len = make_sheet(sheet, two, sizeof two), pages, sent;

    memset(before, 0xA5, TAG);
    memcpy(tag, before, TAG);
    expect(urp_write(sheet, sheet_len, tag, TAG, open_pages, LOCKS, &pages)
               == URP_DONE && pages == differing(before, tag),
           "the count is not that of the pages that differ");
    for (sent = 0; sent <= LOCKS; sent++) {
        memcpy(chip, before, TAG);
        memcpy(chip, tag, sent * URP_PAGE);
        expect(urp_write(sheet, sheet_len, chip, TAG, open_pages, LOCKS,
                         &pages) == URP_DONE && memcmp(chip, tag, TAG) == 0,
               "writing again does not mend a half-sent tag");
    }
}

/* ---- the place of damage ---- */

/* Where blocks begin; what a result holds before a call, which is no place. */
enum { FIRST = 34, PRESET = 0xA5A5 };

/* A tag, and the other arguments of reading and editing it. */
struct call {
    uint8_t tag[TAG];
    size_t tag_len;
    size_t sheet_len;
    uint8_t lock;      /* of every page */
    uint32_t number;
    size_t value_len;  /* the value is so many bytes 41 */
    size_t old_len;
};

/* A tag of 4, 5 and these bytes from 34 on, and an edit of 1 on it. */
static void make_call(struct call *c, const uint8_t *chain, size_t len)
{
    uint8_t sheet[64];
    size_t sheet_len = make_sheet(sheet, two, sizeof two), pages;

    memset(c, 0, sizeof *c);
    expect(urp_write(sheet, sheet_len, c->tag, TAG, open_pages, LOCKS, &pages)
               == URP_DONE, "a sheet is refused");
    memset(c->tag + FIRST, 0, TAG - FIRST);
    memcpy(c->tag + FIRST, chain, len);
    c->tag_len = TAG;
    c->sheet_len = URP_SHEET_MAX;
    c->number = URP_ELEMENT_PRIMARY_ITEM;
    c->value_len = 1;
    c->old_len = URP_OLD_MAX;
}

/* The same with a block 1 of these bytes. */
static void make_call_on_block_1(struct call *c, const uint8_t *rest,
                                 size_t len)
{
    uint8_t block[255];

    make_call(c, block, make_block(block, 1, rest, len));
}

static void judge(const char *call, uint32_t answer, size_t place,
                  uint32_t right, size_t right_place)
{
    if (answer == right && place == right_place)
        return;
    printf("header: %s gives %lu and leaves place %lu, not %lu and %lu\n",
           call, (unsigned long)answer, (unsigned long)place,
           (unsigned long)right, (unsigned long)right_place);
    wrong++;
}

static void try_read(const struct call *c, uint32_t right, size_t right_place)
{
    uint8_t sheet[URP_SHEET_MAX];
    size_t used = PRESET, place = PRESET;
    uint32_t answer = urp_read(c->tag, c->tag_len, sheet, c->sheet_len,
                               &used, &place);

    judge("reading", answer, place, right, right_place);
    expect((used == PRESET) == (answer != URP_DONE),
           "reading gives a length at a refusal, or none when it is done");
}

static void try_edit(const struct call *c, uint32_t right, size_t right_place)
{
    uint8_t tag[TAG], locks[LOCKS], value[URP_OLD_MAX], old[URP_OLD_MAX];
    size_t pages = PRESET, old_used = PRESET, place = PRESET;
    uint32_t answer;
    int is_same;

    memcpy(tag, c->tag, TAG);
    memset(locks, c->lock, sizeof locks);
    memset(value, 0x41, sizeof value);
    answer = urp_edit(tag, c->tag_len, locks, c->tag_len / URP_PAGE,
                      c->number, value, c->value_len, old, c->old_len,
                      &pages, &old_used, &place);
    judge("editing", answer, place, right, right_place);
    is_same = pages == PRESET && old_used == PRESET
        && memcmp(tag, c->tag, TAG) == 0;
    expect(is_same == (answer != URP_DONE),
           "editing changes bytes at a refusal, or nothing when it is done");
}

static void try_both(const struct call *c, uint32_t right, size_t right_place)
{
    try_read(c, right, right_place);
    try_edit(c, right, right_place);
}

/* Damage at the tag's last byte, behind fillers. */
static void damage_at_the_end(uint8_t length, uint32_t answer)
{
    uint8_t chain[TAG - FIRST];
    struct call c;

    memset(chain, 1, sizeof chain);
    chain[sizeof chain - 1] = length;
    make_call(&c, chain, sizeof chain);
    try_both(&c, answer, TAG - 1);
}

static void damage(void)
{
    static const struct {
        uint8_t chain[10];
        uint32_t answer;
        size_t place;
    } tried[] = {
        { { 2 }, URP_BLOCK_LENGTH, 34 },
        { { 1, 2 }, URP_BLOCK_LENGTH, 35 },
        { { 223, 0x2C, 1 }, URP_BLOCK_END, 34 },
        { { 255, 0, 0 }, URP_BLOCK_END, 34 },
        { { 3, 0, 0 }, URP_BLOCK_ID, 34 },
        { { 4, 0, 0, 4 }, URP_BLOCK_ID, 34 },
        { { 3, 100, 0 }, URP_BLOCK_ID, 34 },
        { { 5, 2, 0, 0x47, 0x41 }, URP_BLOCK_CHECKSUM, 34 },
        { { 5, 2, 0, 0x46, 0x41, 1, 2 }, URP_BLOCK_LENGTH, 40 },
        { { 4, 1, 0, 5, 4, 1, 0, 5, 2 }, URP_BLOCK_SECOND, 38 },
        { { 4, 1, 0, 5, 4, 1, 0, 4, 2 }, URP_BLOCK_CHECKSUM, 38 },
        { { 4, 1, 0, 5, 3, 1, 0, 2 }, URP_BLOCK_ID, 38 }
    };
    struct call c;
    size_t i;

    for (i = 0; i < sizeof tried / sizeof tried[0]; i++) {
        make_call(&c, tried[i].chain, sizeof tried[i].chain);
        try_both(&c, tried[i].answer, tried[i].place);
    }
    damage_at_the_end(2, URP_BLOCK_LENGTH);
    damage_at_the_end(3, URP_BLOCK_END);
}

/* The other answers to a tag. */
static void no_place_of_a_tag(void)
{
    static const uint8_t no_text[] = { 0, 7 };
    static const uint8_t no_marker[] = { 0, 0, 'D', 'K', '-', '1' };
    struct call c;

    make_call(&c, two, sizeof two);
    try_both(&c, URP_DONE, PRESET);
    c.tag_len = FIRST;
    try_both(&c, URP_SIZE, PRESET);
    c.tag_len = TAG;
    c.tag[19] ^= 1;
    try_both(&c, URP_CHECK, PRESET);
    c.tag[0] ^= 1;
    try_both(&c, URP_CONTENT, PRESET);
    make_call_on_block_1(&c, no_text, sizeof no_text);
    try_both(&c, URP_FIELD, PRESET);
    make_call_on_block_1(&c, no_marker, sizeof no_marker);
    try_both(&c, URP_MISMATCH, PRESET);
}

/* The other answers to a tag that reads. */
static void no_place_of_a_call(void)
{
    static const uint8_t filler[] = { 1 }, item[] = { 0, 0x41 };
    struct call c;

    make_call(&c, filler, sizeof filler);
    try_edit(&c, URP_LOOSE, PRESET);
    make_call(&c, two, sizeof two);
    c.lock = 1;
    try_edit(&c, URP_LOCKED, PRESET);
    c.value_len = 255;
    try_edit(&c, URP_LARGE, PRESET);
    c.number = URP_ELEMENT_CARRIED;
    try_edit(&c, URP_VALUE, PRESET);
    c.old_len = URP_OLD_MAX - 1;
    try_edit(&c, URP_ROOM, PRESET);
    c.sheet_len = 2;
    try_read(&c, URP_ROOM, PRESET);
    make_call_on_block_1(&c, item, sizeof item);
    c.value_len = 17;
    try_edit(&c, URP_CLASH, PRESET);
}

static int is_damage(uint32_t answer)
{
    switch (answer) {
    case URP_BLOCK_LENGTH:
    case URP_BLOCK_END:
    case URP_BLOCK_ID:
    case URP_BLOCK_CHECKSUM:
    case URP_BLOCK_SECOND: return 1;
    default: return 0;
    }
}

static void places(void)
{
    uint32_t answer;

    damage();
    no_place_of_a_tag();
    no_place_of_a_call();
    for (answer = 0; answer <= 40; answer++)
        expect(URP_HAS_PLACE(answer) == is_damage(answer),
               "URP_HAS_PLACE is wrong of an answer");
}

/* ---- the text of elements ---- */

enum { SHORT_TAG = 32 };

/* The answer to setting an element on a tag of 4 and 5. Removing it hands back
   what was set, byte for byte. */
static uint32_t set(size_t tag_len, uint32_t number, const void *value,
                    size_t len)
{
    static const uint8_t sheet[] = {
        2, 0,  4, 10, 0, 4,  5, 14, 0, 1,  1, 0, 1, 0,  0x10
    };
    uint8_t tag[TAG] = {0}, old[URP_OLD_MAX];
    size_t locks_len = tag_len / URP_PAGE, pages, used, place;
    uint32_t answer;

    expect(urp_write(sheet, sizeof sheet, tag, tag_len, open_pages, locks_len,
                     &pages) == URP_DONE, "a sheet of 4 and 5 is refused");
    answer = urp_edit(tag, tag_len, open_pages, locks_len, number,
                      (const uint8_t *)value, len, old, sizeof old,
                      &pages, &used, &place);
    if (answer != URP_DONE)
        return answer;
    expect(urp_edit(tag, tag_len, open_pages, locks_len, number, NULL, 0,
                    old, sizeof old, &pages, &used, &place) == URP_DONE
               && used == len && memcmp(old, value, len) == 0,
           "a text does not come back as it was set");
    return answer;
}

/* Sets a value as each element that is text, and reads it as the item field of
   block 1. Behind the value stands what a cut character would go on with. */
static void try_value(const char *value, int is_text)
{
    uint32_t right = is_text ? URP_DONE : URP_VALUE;
    size_t len = strlen(value);
    uint8_t bytes[16], *text = bytes + 1;
    struct call c;

    memset(bytes, 0x80, sizeof bytes);
    bytes[0] = 2;  /* begins a 23, or is the media format */
    memcpy(text, value, len);
    expect(set(TAG, URP_ELEMENT_PRIMARY_ITEM, text, len) == right
               && set(TAG, URP_ELEMENT_ALTERNATIVE_ITEM, text, len) == right
               && set(TAG, URP_ELEMENT_ALTERNATIVE_OWNER, bytes, 1 + len)
                   == right,
           is_text ? "a text is refused" : "what is no text is set");
    make_call_on_block_1(&c, bytes, 1 + len);
    try_read(&c, is_text ? URP_DONE : URP_FIELD, PRESET);
}

static void utf8(void)
{
    /* the first and last of each length and beside the surrogates, C2 9F, all
       lengths in a row, and two spellings of one letter */
    static const char *const good[] = {
        "\302\200", "\337\277", "\340\240\200", "\355\237\277",
        "\356\200\200", "\357\277\277", "\360\220\200\200",
        "\364\217\277\277", "\302\237",
        "x\303\251\342\200\223\360\235\204\236x", "\303\251", "e\314\201"
    };
    /* what has a shorter form, surrogates, what lies above 10FFFF, what is cut
       or goes on otherwise, and control characters */
    static const char *const bad[] = {
        "\300\257", "\301\277", "\340\237\277", "\360\217\277\277",
        "\355\240\200", "\355\240\200\355\260\200", "\364\220\200\200",
        "\365\200\200\200", "\303", "x\342\200", "\360\235\204", "\303x",
        "\303\300", "\342\200x", "\360\235x\236", "\360\235\204x",
        "\251", "\303\251\251", "x\177", "\303\251\037"
    };
    size_t i;

    for (i = 0; i < sizeof good / sizeof good[0]; i++)
        try_value(good[i], 1);
    for (i = 0; i < sizeof bad / sizeof bad[0]; i++)
        try_value(bad[i], 0);
}

static void texts(void)
{
    /* eight times an e with an acute accent, and one character more */
    static const char eight[] =
        "\303\251\303\251\303\251\303\251\303\251\303\251\303\251\303\251x";
    unsigned number;
    uint8_t byte;

    utf8();
    for (number = 0; number <= 0xFF; number++) {
        byte = (uint8_t)number;
        expect(set(SHORT_TAG, URP_ELEMENT_PRIMARY_ITEM, &byte, 1)
                   == (number >= 0x20 && number <= 0x7E ? URP_DONE : URP_VALUE),
               "another byte than 20 to 7E is a text by itself");
    }
    expect(set(SHORT_TAG, URP_ELEMENT_PRIMARY_ITEM, eight, 16) == URP_DONE,
           "16 bytes of text do not fit");
    expect(set(SHORT_TAG, URP_ELEMENT_PRIMARY_ITEM, eight, 17) == URP_LARGE,
           "a limit counts characters");
    expect(set(SHORT_TAG, URP_ELEMENT_PRIMARY_ITEM, eight, 15) == URP_VALUE,
           "a letter may be cut");
    expect(set(TAG, URP_ELEMENT_OWNER, "DK-\303\251", 5) == URP_VALUE,
           "an ISIL has another alphabet");
}

/* ---- UHF words ---- */

/* The longest text that is tried; some items more than any output has, and what
   they hold before a call. */
enum { TEXT_MAX = 24, SPARE = 4, PRESET_BYTE = 0xA5 };

static const char header_text[] = "CH-000134-1.12345678.31";
static const uint16_t header_words[] = {
    0x141C, 0xC04F, 0xC70B, 0xADB5, 0xC6E2, 0xDA1D, 0xED4D, 0xD319
};
static const char mixed_text[] = "DK-1/2.a";
static const uint16_t mixed_words[] = {
    0x1AD4, 0xC1C1, 0xFC2F, 0xCC61, 0xFC61
};

/* Whether the items of a buffer from this byte on are as they were. */
static int is_untouched(const void *buffer, size_t from, size_t end)
{
    const uint8_t *bytes = (const uint8_t *)buffer;

    for (; from < end; from++)
        if (bytes[from] != PRESET_BYTE)
            return 0;
    return 1;
}

/* Reads words with this much room. The answer is the right one; text and length
   are those given when it is done, and nothing has changed when it is not. */
static void try_text(const uint16_t *words, size_t count, size_t room,
                     uint32_t right, const void *text, size_t len)
{
    uint8_t out[3 * TEXT_MAX + SPARE];
    size_t used = PRESET, filled = right == URP_DONE ? len : 0;

    memset(out, PRESET_BYTE, sizeof out);
    expect(urp_words_to_text(words, count, room == 0 ? NULL : out, room, &used)
               == right, "words get another answer");
    expect(used == (right == URP_DONE ? len : (size_t)PRESET)
               && memcmp(out, text, filled) == 0,
           "words are another text, or a refusal gives a length");
    expect(is_untouched(out, filled, sizeof out),
           "reading words changes bytes that are not the text");
}

/* Makes words in the same way. */
static void try_words(const void *text, size_t len, size_t room,
                      uint32_t right, const uint16_t *words, size_t count)
{
    uint16_t out[TEXT_MAX + SPARE];
    size_t used = PRESET, filled = right == URP_DONE ? count : 0;

    memset(out, PRESET_BYTE, sizeof out);
    expect(urp_text_to_words((const uint8_t *)text, len,
                             room == 0 ? NULL : out, room, &used) == right,
           "a text gets another answer");
    expect(used == (right == URP_DONE ? count : (size_t)PRESET)
               && memcmp(out, words, filled * sizeof *words) == 0,
           "a text has other words, or a refusal gives a count");
    expect(is_untouched(out, filled * sizeof *words, sizeof out),
           "making words changes others than its own");
}

/* A text and its words, both ways: with the room that always suffices, with
   exact room, and with one item less. */
static void try_pair(const char *text, const uint16_t *words, size_t count)
{
    size_t len = strlen(text);

    try_words(text, len, len, URP_DONE, words, count);
    try_words(text, len, count, URP_DONE, words, count);
    try_words(text, len, count - 1, URP_ROOM, words, count);
    try_text(words, count, 3 * count, URP_DONE, text, len);
    try_text(words, count, len, URP_DONE, text, len);
    try_text(words, count, len - 1, URP_ROOM, text, len);
}

/* The value of a character by the header's table, 0 where it has none. */
static unsigned value_of(unsigned character)
{
    if (character >= 'A' && character <= 'Z')
        return 1 + character - 'A';
    if (character >= '0' && character <= '9')
        return 30 + character - '0';
    switch (character) {
    case '-': return 27;
    case '.': return 28;
    case ':': return 29;
    default: return 0;
    }
}

/* The characters with these values, up to the first pad; gives their count. */
static size_t characters_of(unsigned a, unsigned b, unsigned c, uint8_t *text)
{
    unsigned values[3], character;
    size_t len = 0;

    values[0] = a;
    values[1] = b;
    values[2] = c;
    while (len < 3 && values[len] != 0) {
        for (character = 0; value_of(character) != values[len]; character++)
            ;
        text[len++] = (uint8_t)character;
    }
    return len;
}

/* Every word of three values: with pads at the right alone it is what the sum
   says, both ways; with others it has no meaning. */
static void words_of_three(void)
{
    unsigned a, b, c;
    uint8_t text[3];

    for (a = 0; a < 40; a++)
        for (b = 0; b < 40; b++)
            for (c = 0; c < 40; c++) {
                uint16_t word = (uint16_t)(1600 * a + 40 * b + c + 1);
                size_t len = characters_of(a, b, c, text);

                if (a == 0 || (b == 0 && c != 0)) {
                    try_text(&word, 1, 3, URP_WORD, text, 0);
                } else {
                    try_text(&word, 1, 3, URP_DONE, text, len);
                    try_words(text, len, 1, URP_DONE, &word, 1);
                }
            }
}

/* 0 and the words above FA00: FC00 to FC7F are a character each, which is
   written so where it is none of the 39; no other has a meaning. */
static void other_words(void)
{
    unsigned long number;
    uint16_t word = 0;
    uint8_t character = 0;

    try_text(&word, 1, 3, URP_WORD, &character, 0);
    for (number = 0xFA01; number <= 0xFFFF; number++) {
        word = (uint16_t)number;
        character = (uint8_t)(number & 0xFF);
        if (number < 0xFC00 || number > 0xFC7F) {
            try_text(&word, 1, 3, URP_WORD, &character, 0);
        } else {
            try_text(&word, 1, 1, URP_DONE, &character, 1);
            if (value_of(character) == 0)
                try_words(&character, 1, 1, URP_DONE, &word, 1);
        }
    }
}

/* A word with no meaning, or a character above 7F, is found wherever it stands
   and before the room is looked at. Nothing needs no room, and null will do. */
static void words_refused(void)
{
    uint16_t words[8];
    uint8_t text[TEXT_MAX];
    size_t i, len = strlen(header_text);

    for (i = 0; i < 8; i++) {
        memcpy(words, header_words, sizeof words);
        words[i] = 1;
        try_text(words, 8, 3 * 8, URP_WORD, text, 0);
        try_text(words, 8, 0, URP_WORD, text, 0);
    }
    for (i = 0; i < len; i++) {
        memcpy(text, header_text, len);
        text[i] = (uint8_t)(i % 2 == 0 ? 0x80 : 0xFF);
        try_words(text, len, len, URP_CHARACTER, words, 0);
        try_words(text, len, 0, URP_CHARACTER, words, 0);
    }
    try_text(NULL, 0, 0, URP_DONE, text, 0);
    try_text(NULL, 0, 1, URP_DONE, text, 0);
    try_words(NULL, 0, 0, URP_DONE, words, 0);
    try_words(NULL, 0, 1, URP_DONE, words, 0);
    try_text(header_words, 8, 0, URP_ROOM, text, 0);
    try_words(header_text, len, 0, URP_ROOM, words, 0);
}

/* Of the pairs, two need all the room that the header says always suffices. */
static void uhf_words(void)
{
    static const uint16_t threes[] = { 0x141C, 0x1AD4 };
    static const uint16_t ones[] = { 0xFC61, 0xFC2F, 0xFC62 };
    static const uint16_t padded[] = { 0x0641, 0xFC41, 0x0641 };
    static const uint16_t fewer[] = { 0x066A };

    expect(header_words[0] == 5148, "141C is another number");
    try_pair(header_text, header_words, 8);
    try_pair(mixed_text, mixed_words, 5);
    try_pair("CH-DK-", threes, 2);
    try_pair("a/b", ones, 3);
    /* other words than are written read as the same text */
    try_text(padded, 3, 3, URP_DONE, "AAA", 3);
    try_words("AAA", 3, 1, URP_DONE, fewer, 1);
    words_of_three();
    other_words();
    words_refused();
}

/* ---- UHF identifier ---- */

/* Elements 1, 3 and 4 in the form of the sheet, with room to spare. */
enum { ITEM, ISIL, SET, ELEMENTS };

struct elements {
    uint8_t bytes[ELEMENTS][URP_ITEM_MAX + SPARE];
    size_t lens[ELEMENTS];
};

static const size_t sufficing[ELEMENTS] = {
    URP_ITEM_MAX, URP_ISIL_MAX, URP_SET_MAX
};

static void make_elements(struct elements *e, const char *item,
                          const char *isil, unsigned total, unsigned ordinal)
{
    memset(e, 0, sizeof *e);
    e->lens[ITEM] = strlen(item);
    memcpy(e->bytes[ITEM], item, e->lens[ITEM]);
    e->lens[ISIL] = strlen(isil);
    memcpy(e->bytes[ISIL], isil, e->lens[ISIL]);
    e->lens[SET] = 4;
    e->bytes[SET][0] = (uint8_t)total;
    e->bytes[SET][2] = (uint8_t)ordinal;
}

/* A buffer with this much room; null will do for none. */
static uint8_t *lent(uint8_t *buffer, size_t room)
{
    return room == 0 ? NULL : buffer;
}

/* Takes an identifier apart with this much room for each element. The answer is
   the right one; the elements are those given when it is done, and nothing has
   changed when it is not. */
static void try_apart(const void *text, size_t len, uint32_t isil_leads,
                      const size_t *room, uint32_t right,
                      const struct elements *e)
{
    struct elements out;
    int i;

    memset(&out, PRESET_BYTE, sizeof out);
    expect(urp_take_apart((const uint8_t *)text, len, isil_leads,
                          lent(out.bytes[ITEM], room[ITEM]), room[ITEM],
                          lent(out.bytes[ISIL], room[ISIL]), room[ISIL],
                          lent(out.bytes[SET], room[SET]), room[SET],
                          &out.lens[ITEM], &out.lens[ISIL], &out.lens[SET])
               == right, "an identifier gets another answer");
    if (right != URP_DONE) {
        expect(is_untouched(&out, 0, sizeof out),
               "an identifier that is refused changes something");
        return;
    }
    for (i = ITEM; i < ELEMENTS; i++)
        expect(out.lens[i] == e->lens[i]
                   && memcmp(out.bytes[i], e->bytes[i], e->lens[i]) == 0
                   && is_untouched(out.bytes[i], e->lens[i],
                                   sizeof out.bytes[i]),
               "an identifier has other elements");
}

/* Puts elements together in the same way. */
static void try_together(const struct elements *e, size_t room, uint32_t right,
                         const char *text)
{
    uint8_t out[URP_IDENTIFIER_MAX + SPARE];
    size_t used = PRESET, filled = right == URP_DONE ? strlen(text) : 0;

    memset(out, PRESET_BYTE, sizeof out);
    expect(urp_put_together(e->bytes[ITEM], e->lens[ITEM],
                            e->lens[ISIL] == 0 ? NULL : e->bytes[ISIL],
                            e->lens[ISIL], e->bytes[SET], e->lens[SET],
                            lent(out, room), room, &used)
               == right, "elements get another answer");
    expect(used == (right == URP_DONE ? filled : (size_t)PRESET)
               && memcmp(out, text, filled) == 0,
           "elements are another identifier, or a refusal gives a length");
    expect(is_untouched(out, filled, sizeof out),
           "putting together changes bytes that are not the identifier");
}

/* An identifier and its elements, both ways: with the room that always
   suffices, with exact room, and with one byte less anywhere. */
static void try_identifier(const char *text, const struct elements *e)
{
    uint32_t isil_leads = e->lens[ISIL] > 0;
    size_t room[ELEMENTS], len = strlen(text);
    int i;

    try_together(e, URP_IDENTIFIER_MAX, URP_DONE, text);
    try_together(e, len, URP_DONE, text);
    try_together(e, len - 1, URP_ROOM, text);
    try_together(e, 0, URP_ROOM, text);
    try_apart(text, len, isil_leads, sufficing, URP_DONE, e);
    try_apart(text, len, isil_leads, e->lens, URP_DONE, e);
    for (i = ITEM; i < ELEMENTS; i++) {
        memcpy(room, e->lens, sizeof room);
        if (room[i] == 0)
            continue;
        room[i]--;
        try_apart(text, len, isil_leads, room, URP_ROOM, e);
    }
}

/* The header's examples, and the longest identifier. Any number but 0 says that
   an ISIL leads, and that alone decides. */
static void examples(void)
{
    static const uint32_t yes[] = { 1, 2, 0x100, 0x80000000, 0xFFFFFFFF };
    char item[URP_ITEM_MAX + 1], text[URP_IDENTIFIER_MAX + 1];
    struct elements e;
    size_t i;

    make_elements(&e, "12345678", "CH-000134-1", 3, 1);
    try_identifier(header_text, &e);
    for (i = 0; i < sizeof yes / sizeof yes[0]; i++)
        try_apart(header_text, strlen(header_text), yes[i], sufficing,
                  URP_DONE, &e);
    try_apart(header_text, strlen(header_text), 0, sufficing, URP_PARTS, &e);
    make_elements(&e, "31", "DK-1", 0, 0);
    try_identifier("DK-1.31", &e);
    make_elements(&e, "DK-1", "", 3, 1);
    try_identifier("DK-1.31", &e);
    make_elements(&e, "K\303\270benhavn", "", 120, 7);
    try_identifier("K\303\270benhavn.120007", &e);

    memset(item, 'x', URP_ITEM_MAX);
    item[URP_ITEM_MAX] = '\0';
    make_elements(&e, item, "OCLC-12345678901", 255, 255);
    sprintf(text, "OCLC-12345678901.%s.255255", item);
    expect(strlen(text) == URP_IDENTIFIER_MAX
               && e.lens[ISIL] == URP_ISIL_MAX,
           "the longest identifier has another length");
    try_identifier(text, &e);
}

/* Every total and ordinal in this count of digits each: set information if the
   total is from first to last and the ordinal no more. Of three digits, which
   are many, a few ordinals for each total. */
static void set_digits(int digits, unsigned first, unsigned last)
{
    unsigned end = digits == 1 ? 10 : digits == 2 ? 100 : 1000;
    unsigned total, ordinal;
    struct elements e;
    char text[16];

    for (total = 0; total < end; total++)
        for (ordinal = 0; ordinal < end; ordinal++) {
            if (digits == 3 && ordinal % 97 != 0 && ordinal + 1 != total
                && ordinal != total && ordinal != total + 1)
                continue;
            sprintf(text, "x.%0*u%0*u", digits, total, digits, ordinal);
            make_elements(&e, "x", "", total, ordinal);
            if (total >= first && total <= last && ordinal <= total)
                try_identifier(text, &e);
            else
                try_apart(text, strlen(text), 0, sufficing, URP_FIELD, &e);
        }
}

/* 22, then 6, then 23, then 2. */
static void apart_refused(void)
{
    static const struct {
        uint32_t isil_leads;
        uint32_t answer;
        const char *texts[24];  /* up to a null */
    } tried[] = {
        { 0, URP_PARTS, { "..", "\200..S", "x.3.1" } },
        { 1, URP_PARTS, { "", "x", "S", "...", "dk.x.S." } },
        { 0, URP_FIELD,
          { "", ".", "x.", ".31", ".S", "\303.S", "x\037", "x\177.31", "x.s",
            "x.SS", "x.3S", "x.3", "x.120", "x.12345", "x.1200012",
            "x.11111111", "x.3/", "x.3:", "x.991/", "x.991:", "x. 1", "x.-1" } },
        { 1, URP_FIELD,
          { "..", "dk-1.x", "DK-1..S", ".x.S", "DKDKD-1.x", "DK-1.x.",
            "DK-123456789012.x", "DK-1.\200" } },
        { 0, URP_BANK, { "x.S", "S.S", "DK-1.S" } },
        { 1, URP_BANK, { "DK-1.x.S", "DK-1.S.S" } }
    };
    static const size_t none[ELEMENTS] = { 0, 0, 0 };
    struct elements e;
    const char *const *text;
    size_t i;

    memset(&e, 0, sizeof e);
    for (i = 0; i < sizeof tried / sizeof tried[0]; i++)
        for (text = tried[i].texts; *text != NULL; text++) {
            try_apart(*text, strlen(*text), tried[i].isil_leads, sufficing,
                      tried[i].answer, &e);
            try_apart(*text, strlen(*text), tried[i].isil_leads, none,
                      tried[i].answer, &e);
        }
    try_apart(NULL, 0, 0, none, URP_FIELD, &e);
    try_apart("x", 1, 0, none, URP_ROOM, &e);
    /* S elsewhere is an item identifier; before .S it is without the two */
    make_elements(&e, "S", "", 0, 0);
    try_identifier("S", &e);
    try_apart("S.S", 1, 0, sufficing, URP_DONE, &e);
    make_elements(&e, "S", "DK-1", 0, 0);
    try_identifier("DK-1.S", &e);
}

/* An item identifier of 256 bytes is refused both ways, and before 23 and 2. */
static void too_long(void)
{
    char text[URP_ITEM_MAX + 1 + sizeof ".S"];
    struct elements e;

    memset(text, 'x', sizeof text);
    strcpy(text + URP_ITEM_MAX + 1, ".S");
    make_elements(&e, "", "", 0, 0);
    memset(e.bytes[ITEM], 'x', URP_ITEM_MAX + 1);
    e.lens[ITEM] = URP_ITEM_MAX + 1;
    try_apart(text, URP_ITEM_MAX + 1, 0, sufficing, URP_FIELD, &e);
    try_apart(text, strlen(text), 0, sufficing, URP_FIELD, &e);
    try_apart(text + 1, strlen(text + 1), 0, sufficing, URP_BANK, &e);
    try_together(&e, 0, URP_VALUE, "");
    try_together(&e, URP_IDENTIFIER_MAX, URP_VALUE, "");
}

/* 9 for an element by itself; room is not looked at before. */
static void together_refused(void)
{
    static const struct {
        const char *item;
        const char *isil;
        uint8_t set[5];
        size_t set_len;
    } tried[] = {
        { "", "", { 0 }, 4 }, { "", "DK-1", { 3, 0, 1 }, 4 },
        { "x.y", "", { 0 }, 4 }, { ".", "DK-1", { 0 }, 4 },
        { "x.", "", { 3, 0, 1 }, 4 }, { "\303", "", { 0 }, 4 },
        { "x\037", "", { 0 }, 4 }, { "\177", "", { 0 }, 4 },
        { "x", "dk-1", { 0 }, 4 }, { "x", "DK", { 0 }, 4 },
        { "x", "DK-", { 0 }, 4 }, { "x", "DK-1.", { 0 }, 4 },
        { "x", "", { 3, 0, 4 }, 4 }, { "x", "", { 0, 0, 1 }, 4 },
        { "x", "", { 0, 1 }, 4 }, { "x", "", { 3, 1, 1 }, 4 },
        { "x", "", { 3, 0, 1, 1 }, 4 }, { "x", "", { 0 }, 0 },
        { "x", "", { 3, 0, 1 }, 3 }, { "x", "", { 3, 0, 1 }, 5 }
    };
    struct elements e;
    size_t i;

    for (i = 0; i < sizeof tried / sizeof tried[0]; i++) {
        make_elements(&e, tried[i].item, tried[i].isil, 0, 0);
        memcpy(e.bytes[SET], tried[i].set, sizeof tried[i].set);
        e.lens[SET] = tried[i].set_len;
        try_together(&e, URP_IDENTIFIER_MAX, URP_VALUE, "");
        try_together(&e, 0, URP_VALUE, "");
    }
}

static void uhf_identifier(void)
{
    examples();
    set_digits(1, 1, 9);
    set_digits(2, 10, 99);
    set_digits(3, 100, 255);
    apart_refused();
    too_long();
    together_refused();
}

int main(void)
{
    blocks();
    sending();
    places();
    texts();
    uhf_words();
    uhf_identifier();
    if (wrong > 0)
        return 1;
    puts("blocks, pages, places, texts, words and identifiers are as the header"
         " says");
    return 0;
}

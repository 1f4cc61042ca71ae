/* plain.c: the calls of urpanella.h in plain C, written from documents 01
   and 02. The benchmark holds the proved library against it. */
#include "urpanella.h"

#include <string.h>

enum {
    BASIC = 34,      /* where the chain of blocks starts */
    SHORT_TAG = 32,  /* a tag with no chain and a shorter owner field */
    ITEM_AT = 3,
    ITEM_WIDTH = 16,
    CRC_AT = 19,
    OWNER_AT = 21,
    OWNER_WIDTH = 13,
    LEAD = 4,        /* length, ID and checksum of a structured block */
    BLOCK_MAX = 255,
    UNIT_MAX = 11,
    ELSEWHERE = 1,   /* marker: the field stands in block 1 */
    CARRIED = 255    /* element number of a carried block */
};

/* The elements that a sheet has at most once, in the order of their numbers. */
enum { ITEM, ISIL, SET, USAGE, MEDIA, ITEM2, OWNER2, SLOTS };

static const uint8_t slot_numbers[SLOTS] = { 1, 3, 4, 5, 19, 22, 23 };

struct span {
    const uint8_t *at;
    size_t len;
};

/* What a tag or a sheet says: the elements in sheet form, empty where there is
   none, and the carried blocks. */
struct content {
    struct span slot[SLOTS];
    struct span carried;             /* all carried blocks in a row */
    uint8_t isil[2 + 1 + UNIT_MAX];  /* bytes of those elements that no part */
    uint8_t set[4];                  /* of the tag holds in sheet form */
    uint8_t usage;
};

/* What a walk over the chain finds. */
struct chain {
    const uint8_t *block1;  /* null where there is none */
    const uint8_t *first;   /* first and last carried block */
    const uint8_t *last;
    size_t blocks;          /* count and bytes of the carried blocks */
    size_t bytes;
};

/* The fields of block 1, or of the basic block, before they are elements. */
struct fields {
    struct span item;
    struct span owner;
    struct span media;
    uint8_t usage;
    int item_marked;
    int owner_marked;
};

/* The CRC's register in the upper half, one bit on: what goes out is gone, and
   brings the polynomial in. Not a loop of eight: clang makes a table of it. */
static uint32_t crc_bit(uint32_t crc)
{
    return crc << 1 ^ (-(crc >> 31) & 0x10210000);
}

static uint32_t crc_over(uint32_t crc, const uint8_t *bytes, size_t len)
{
    size_t i;

    for (i = 0; i < len; i++) {
        crc ^= (uint32_t)bytes[i] << 24;
        crc = crc_bit(crc_bit(crc_bit(crc_bit(crc))));
        crc = crc_bit(crc_bit(crc_bit(crc_bit(crc))));
    }
    return crc;
}

static size_t owner_width(size_t tag_len)
{
    return tag_len == SHORT_TAG ? SHORT_TAG - OWNER_AT : OWNER_WIDTH;
}

/* The CRC that belongs on a tag; what a short tag lacks counts as 00. */
static uint16_t basic_crc(const uint8_t *tag, size_t tag_len)
{
    static const uint8_t zeros[BASIC - SHORT_TAG] = { 0, 0 };
    size_t width = owner_width(tag_len);
    uint32_t crc = crc_over(0xFFFF0000, tag, CRC_AT);

    crc = crc_over(crc, tag + OWNER_AT, width);
    return (uint16_t)(crc_over(crc, zeros, OWNER_WIDTH - width) >> 16);
}

static size_t low_first(const uint8_t *two)
{
    return two[0] | (size_t)two[1] << 8;
}

static void put_low_first(uint8_t *two, size_t number)
{
    two[0] = (uint8_t)(number & 0xFF);
    two[1] = (uint8_t)(number >> 8);
}

static struct span span_of(const uint8_t *at, size_t len)
{
    struct span s;

    s.at = at;
    s.len = len;
    return s;
}

/* The length without the 00 bytes at the end. */
static size_t stripped(const uint8_t *bytes, size_t len)
{
    while (len > 0 && bytes[len - 1] == 0)
        len--;
    return len;
}

static int is_capital(uint8_t b)
{
    return b >= 'A' && b <= 'Z';
}

/* Whether a byte of UTF-8 goes on with a character that has begun. */
static int goes_on(uint8_t b)
{
    return (b & 0xC0) == 0x80;
}

/* Whether b is the second byte of a character of three or four: what has a
   shorter form is none, nor a surrogate, nor what lies above 10FFFF. */
static int is_second(uint8_t first, uint8_t b)
{
    switch (first) {
    case 0xE0: return b >= 0xA0 && b <= 0xBF;
    case 0xED: return b >= 0x80 && b <= 0x9F;
    case 0xF0: return b >= 0x90 && b <= 0xBF;
    case 0xF4: return b >= 0x80 && b <= 0x8F;
    default: return goes_on(b);
    }
}

/* The length of the character of two to four bytes that begins here, as RFC
   3629 has it, left bytes before the end and left at least 1; 0 where none
   does. */
static size_t character_len(const uint8_t *at, size_t left)
{
    uint8_t first = at[0];

    if (first < 0xE0)
        return first >= 0xC2 && left >= 2 && goes_on(at[1]) ? 2 : 0;
    if (first < 0xF0)
        return left >= 3 && is_second(first, at[1]) && goes_on(at[2]) ? 3 : 0;
    return first <= 0xF4 && left >= 4 && is_second(first, at[1])
        && goes_on(at[2]) && goes_on(at[3]) ? 4 : 0;
}

/* Whether these are UTF-8, without 00 to 1F and 7F. */
static int is_text(const uint8_t *bytes, size_t len)
{
    size_t at = 0;

    while (at < len) {
        if (bytes[at] >= 0x20 && bytes[at] <= 0x7E) {
            at++;
        } else {
            size_t size = character_len(bytes + at, len - at);

            if (size == 0)
                return 0;
            at += size;
        }
    }
    return 1;
}

static int is_unit(const uint8_t *bytes, size_t len)
{
    size_t i;

    if (len < 1 || len > UNIT_MAX)
        return 0;
    for (i = 0; i < len; i++) {
        uint8_t b = bytes[i];

        /* '-', '/', the digits and ':' stand in a row, with '.' among them */
        if (!(b >= '-' && b <= ':' && b != '.') && !is_capital(b)
            && !(b >= 'a' && b <= 'z'))
            return 0;
    }
    return 1;
}

/* The count of capitals at the start of an ISIL. */
static size_t prefix_len(const uint8_t *bytes, size_t len)
{
    size_t n = 0;

    while (n < len && is_capital(bytes[n]))
        n++;
    return n;
}

static int is_isil(const uint8_t *bytes, size_t len)
{
    size_t n = prefix_len(bytes, len);

    return n >= 1 && n <= 4 && n < len && bytes[n] == '-'
        && is_unit(bytes + n + 1, len - n - 1);
}

static int begins_other_owner(const uint8_t *bytes)
{
    return bytes[0] == 2 || bytes[0] == 3;
}

static int is_other_owner(const uint8_t *bytes, size_t len)
{
    return len >= 2 && begins_other_owner(bytes) && is_text(bytes + 1, len - 1);
}

static int is_set(const uint8_t *bytes, size_t len)
{
    return len == 4 && bytes[1] == 0 && bytes[3] == 0 && bytes[2] <= bytes[0];
}

static uint8_t xor_over(const uint8_t *bytes, size_t len)
{
    uint8_t x = 0;
    size_t i;

    for (i = 0; i < len; i++)
        x ^= bytes[i];
    return x;
}

/* What is wrong with the block that begins here, left bytes before the end and
   left at least 1: 15 to 18, or URP_DONE for nothing. A filler is no block. */
static uint32_t block_damage(const uint8_t *block, size_t left)
{
    size_t len = block[0], id;

    if (len < 3)
        return URP_BLOCK_LENGTH;
    if (len > left)
        return URP_BLOCK_END;
    id = low_first(block + 1);
    if (id > 100)
        return URP_DONE;
    if (id == 0 || len < LEAD)
        return URP_BLOCK_ID;
    return xor_over(block, len) == 0 ? URP_DONE : URP_BLOCK_CHECKSUM;
}

static int is_carried(const uint8_t *bytes, size_t len)
{
    return len >= 1 && bytes[0] == len && block_damage(bytes, len) == URP_DONE
        && low_first(bytes + 1) != 1;
}

/* The place of an element among the slots, SLOTS if it has none. */
static int slot_of(uint32_t number)
{
    switch (number) {
    case 1: return ITEM;
    case 3: return ISIL;
    case 4: return SET;
    case 5: return USAGE;
    case 19: return MEDIA;
    case 22: return ITEM2;
    case 23: return OWNER2;
    default: return SLOTS;
    }
}

static int is_value(int slot, const uint8_t *bytes, size_t len)
{
    switch (slot) {
    case ITEM:
    case ITEM2: return len >= 1 && is_text(bytes, len);
    case ISIL: return is_isil(bytes, len);
    case SET: return is_set(bytes, len);
    case USAGE: return len == 1;
    case MEDIA: return len == 1 && bytes[0] != 0;
    case OWNER2: return is_other_owner(bytes, len);
    default: return 0;
    }
}

static int clashes(const struct content *c)
{
    return (c->slot[ISIL].len > 0 && c->slot[OWNER2].len > 0)
        || (c->slot[ITEM2].len > 0 && c->slot[ITEM].len > ITEM_WIDTH);
}

static int is_tag_size(size_t len)
{
    return len == SHORT_TAG
        || (len >= 36 && len <= URP_TAG_MAX && len % URP_PAGE == 0);
}

static int is_lock_map(const uint8_t *locks, size_t locks_len, size_t tag_len)
{
    size_t i;

    if (locks_len != tag_len / URP_PAGE)
        return 0;
    for (i = 0; i < locks_len; i++)
        if (locks[i] > 1)
            return 0;
    return 1;
}

/* ---- from a tag to its content ---- */

static void add_carried(struct chain *chain, const uint8_t *block)
{
    if (chain->blocks == 0)
        chain->first = block;
    chain->last = block;
    chain->blocks++;
    chain->bytes += block[0];
}

/* Adds a block that is good by itself: 19. */
static uint32_t add_block(struct chain *chain, const uint8_t *block)
{
    if (low_first(block + 1) != 1) {
        add_carried(chain, block);
        return URP_DONE;
    }
    if (chain->block1 != NULL)
        return URP_BLOCK_SECOND;
    chain->block1 = block;
    return URP_DONE;
}

/* Walks the chain up to the first damage, and gives its place: 15 to 19. */
static uint32_t walk(const uint8_t *tag, size_t tag_len, struct chain *chain,
                     size_t *place)
{
    size_t at;

    memset(chain, 0, sizeof *chain);
    for (at = BASIC; at < tag_len && tag[at] != 0; at += tag[at]) {
        const uint8_t *block = tag + at;
        uint32_t damage;

        if (block[0] == 1)
            continue;
        damage = block_damage(block, tag_len - at);
        if (damage == URP_DONE)
            damage = add_block(chain, block);
        if (damage != URP_DONE) {
            *place = at;
            return damage;
        }
    }
    return URP_DONE;
}

static int take_item(const uint8_t *tag, struct fields *basic)
{
    const uint8_t *field = tag + ITEM_AT;
    size_t len = stripped(field, ITEM_WIDTH);

    basic->item_marked = len == 1 && field[0] == ELSEWHERE;
    if (!basic->item_marked)
        basic->item = span_of(field, len);
    return basic->item_marked || is_text(field, len);
}

/* Takes the owner field as it stands: an ISIL is put into sheet form later. */
static int take_owner(const uint8_t *tag, size_t tag_len, struct fields *basic)
{
    const uint8_t *field = tag + OWNER_AT;
    size_t len = stripped(field, owner_width(tag_len));

    if (len == 0)
        return 1;
    if (field[2] == ELSEWHERE) {
        basic->owner_marked = 1;
        return len == 3;
    }
    if (begins_other_owner(field + 2)) {
        basic->owner = span_of(field + 2, len - 2);
        return is_other_owner(field + 2, len - 2);
    }
    basic->owner = span_of(field, len);
    return is_capital(field[0]) && (is_capital(field[1]) || field[1] == ' ')
        && len > 2 && is_unit(field + 2, len - 2);
}

/* Takes the bytes up to a separator or the end, and goes past that separator;
   where there is none, rest->at is then null. */
static struct span next_field(struct span *rest, uint8_t separator)
{
    struct span field = *rest;
    const uint8_t *end = NULL;

    if (rest->len > 0)
        end = (const uint8_t *)memchr(rest->at, separator, rest->len);
    if (end == NULL) {
        *rest = span_of(NULL, 0);
        return field;
    }
    field.len = (size_t)(end - field.at);
    rest->at = end + 1;
    rest->len -= field.len + 1;
    return field;
}

static int take_block1(const uint8_t *block, struct fields *more)
{
    struct span rest = span_of(block + LEAD, 0);

    rest.len = stripped(rest.at, block[0] - (size_t)LEAD);
    if (rest.len == 0)
        return 1;
    if (rest.at[0] != 0)
        more->media = span_of(rest.at, 1);
    rest.at++;
    rest.len--;
    more->item = next_field(&rest, 0);
    more->owner = next_field(&rest, 0);
    if (rest.len > 1)
        return 0;
    if (rest.len == 1)
        more->usage = rest.at[0];
    if (!is_text(more->item.at, more->item.len))
        return 0;
    return more->owner.len == 0 || is_isil(more->owner.at, more->owner.len)
        || is_other_owner(more->owner.at, more->owner.len);
}

static int agree(const uint8_t *tag, const struct fields *basic,
                 const struct fields *more)
{
    if (more->usage != 0 && more->usage >> 4 != tag[0] >> 4)
        return 0;
    if (basic->item_marked && more->item.len == 0)
        return 0;
    return basic->owner_marked == (more->owner.len > 0);
}

/* Gives the ISIL of an owner field its hyphen, in place of a blank if it has
   one. */
static struct span with_hyphen(struct span field, uint8_t *room)
{
    size_t prefix = field.at[1] == ' ' ? 1 : 2;

    memcpy(room, field.at, prefix);
    room[prefix] = '-';
    memcpy(room + prefix + 1, field.at + 2, field.len - 2);
    return span_of(room, prefix + 1 + field.len - 2);
}

static void settle_owner(struct content *c, const struct fields *basic,
                         const struct fields *more)
{
    struct span owner = basic->owner_marked ? more->owner : basic->owner;

    if (owner.len == 0)
        return;
    if (begins_other_owner(owner.at))
        c->slot[OWNER2] = owner;
    else if (basic->owner_marked)
        c->slot[ISIL] = owner;
    else
        c->slot[ISIL] = with_hyphen(owner, c->isil);
}

static void settle(struct content *c, const uint8_t *tag,
                   const struct fields *basic, const struct fields *more)
{
    c->slot[basic->item_marked ? ITEM : ITEM2] = more->item;
    if (!basic->item_marked)
        c->slot[ITEM] = basic->item;
    settle_owner(c, basic, more);
    c->slot[MEDIA] = more->media;

    c->set[0] = tag[1];
    c->set[2] = tag[2];
    c->slot[SET] = span_of(c->set, 4);
    c->usage = more->usage != 0 ? more->usage : (uint8_t)(tag[0] & 0xF0);
    c->slot[USAGE] = span_of(&c->usage, 1);
}

/* Takes a tag of good size apart: 3, 4, 15 to 19 with the place, 6, 7. The
   carried blocks count as one part of the tag only if chain says that they
   follow each other. */
static uint32_t take_tag(const uint8_t *tag, size_t tag_len,
                         struct content *c, struct chain *chain,
                         size_t *place)
{
    struct fields basic, more;
    uint32_t damage;
    int good;

    if ((tag[0] & 0x0F) != 1)
        return URP_CONTENT;
    if (low_first(tag + CRC_AT) != basic_crc(tag, tag_len))
        return URP_CHECK;
    damage = walk(tag, tag_len, chain, place);
    if (damage != URP_DONE)
        return damage;

    memset(&basic, 0, sizeof basic);
    memset(&more, 0, sizeof more);
    good = tag[2] <= tag[1] && take_item(tag, &basic)
        && take_owner(tag, tag_len, &basic)
        && (chain->block1 == NULL || take_block1(chain->block1, &more));
    if (!good)
        return URP_FIELD;
    if (!agree(tag, &basic, &more))
        return URP_MISMATCH;

    memset(c, 0, sizeof *c);
    settle(c, tag, &basic, &more);
    c->carried = span_of(chain->first, chain->bytes);
    return URP_DONE;
}

/* ---- from a content to a sheet ---- */

/* Where the next entry and its bytes go. */
struct pen {
    uint8_t *sheet;
    size_t entry;
    size_t place;
};

struct extent {
    size_t entries;
    size_t len;
    size_t last_offset;
};

static void put_entry(struct pen *pen, uint8_t number, struct span bytes)
{
    uint8_t *entry = pen->sheet + pen->entry;

    entry[0] = number;
    put_low_first(entry + 1, pen->place);
    entry[3] = (uint8_t)bytes.len;
    memcpy(pen->sheet + pen->place, bytes.at, bytes.len);
    pen->entry += 4;
    pen->place += bytes.len;
}

/* Puts the carried blocks, past fillers and block 1. */
static void put_carried(struct pen *pen, const struct chain *chain)
{
    const uint8_t *block = chain->first;
    size_t left = chain->blocks;

    for (; left > 0; block += block[0]) {
        if (block[0] == 1 || block == chain->block1)
            continue;
        put_entry(pen, CARRIED, span_of(block, block[0]));
        left--;
    }
}

/* Measures the sheet of a tag's content. */
static void measure(const struct content *c, const struct chain *chain,
                    struct extent *e)
{
    size_t bytes = 0, last = 0;
    int slot;

    e->entries = chain->blocks;
    for (slot = 0; slot < SLOTS; slot++) {
        if (c->slot[slot].len == 0)
            continue;
        e->entries++;
        last = c->slot[slot].len;
        bytes += last;
    }
    if (chain->blocks > 0)
        last = chain->last[0];
    e->len = 2 + 4 * e->entries + bytes + chain->bytes;
    e->last_offset = e->len - last;
}

static void put_sheet(uint8_t *sheet, size_t entries, const struct content *c,
                      const struct chain *chain)
{
    struct pen pen;
    int slot;

    pen.sheet = sheet;
    pen.entry = 2;
    pen.place = 2 + 4 * entries;
    put_low_first(sheet, entries);
    for (slot = 0; slot < SLOTS; slot++)
        if (c->slot[slot].len > 0)
            put_entry(&pen, slot_numbers[slot], c->slot[slot]);
    put_carried(&pen, chain);
}

uint32_t urp_read(const uint8_t *tag, size_t tag_len,
                  uint8_t *sheet, size_t sheet_len,
                  size_t *used, size_t *place)
{
    struct content c;
    struct chain chain;
    struct extent e;
    uint32_t refusal;

    if (!is_tag_size(tag_len))
        return URP_SIZE;
    refusal = take_tag(tag, tag_len, &c, &chain, place);
    if (refusal != URP_DONE)
        return refusal;
    measure(&c, &chain, &e);
    if (e.last_offset > 0xFFFF)
        return URP_OFFSET;
    if (sheet_len < e.len)
        return URP_ROOM;

    put_sheet(sheet, e.entries, &c, &chain);
    *used = e.len;
    return URP_DONE;
}

/* ---- from a sheet to its content ---- */

/* Whether header, order, offsets and end are right: 8. */
static int is_sheet(const uint8_t *sheet, size_t len)
{
    size_t entries, place, i;
    int before = -1;

    if (len < 2)
        return 0;
    entries = low_first(sheet);
    if ((len - 2) / 4 < entries)
        return 0;
    place = 2 + 4 * entries;
    for (i = 0; i < entries; i++) {
        const uint8_t *entry = sheet + 2 + 4 * i;
        int number = entry[0];

        if (number < before || (number == before && number != CARRIED))
            return 0;
        if (low_first(entry + 1) != place)
            return 0;
        before = number;
        place += entry[3];
    }
    return place == len;
}

/* Takes a right sheet's entries: 9. */
static int take_entries(const uint8_t *sheet, size_t len, struct content *c)
{
    size_t entries = low_first(sheet), i;
    const uint8_t *bytes = sheet + 2 + 4 * entries;

    memset(c, 0, sizeof *c);
    for (i = 0; i < entries; i++) {
        const uint8_t *entry = sheet + 2 + 4 * i;
        size_t size = entry[3];
        int slot = slot_of(entry[0]);

        if (entry[0] == CARRIED) {
            if (!is_carried(bytes, size))
                return 0;
            if (c->carried.len == 0)
                c->carried = span_of(bytes, len - (size_t)(bytes - sheet));
        } else {
            if (!is_value(slot, bytes, size))
                return 0;
            c->slot[slot] = span_of(bytes, size);
        }
        bytes += size;
    }
    return c->slot[SET].len > 0 && c->slot[USAGE].len > 0;
}

/* ---- the writer's own layout ---- */

/* Puts the owner into the owner field if one of its forms holds it. */
static int put_owner(const struct content *c, uint8_t *field, size_t width)
{
    struct span isil = c->slot[ISIL], other = c->slot[OWNER2];
    size_t prefix, unit;

    if (other.len > 0) {
        if (other.len > width - 2)
            return 0;
        memcpy(field + 2, other.at, other.len);
        return 1;
    }
    if (isil.len == 0)
        return 1;
    prefix = prefix_len(isil.at, isil.len);
    unit = isil.len - prefix - 1;
    if (prefix > 2 || unit > width - 2)
        return 0;
    field[1] = ' ';
    memcpy(field, isil.at, prefix);
    memcpy(field + 2, isil.at + prefix + 1, unit);
    return 1;
}

/* The length of block 1, 0 where it has nothing to hold. */
static size_t block1_size(const struct fields *f)
{
    if (f->usage != 0)
        return LEAD + 1 + f->item.len + 1 + f->owner.len + 1 + 1;
    if (f->owner.len > 0)
        return LEAD + 1 + f->item.len + 1 + f->owner.len;
    if (f->item.len > 0)
        return LEAD + 1 + f->item.len;
    return f->media.len > 0 ? LEAD + 1 : 0;
}

/* Puts block 1 over size bytes of 00. */
static void put_block1(uint8_t *block, size_t size, const struct fields *f)
{
    uint8_t *field = block + LEAD + 1;

    block[0] = (uint8_t)size;
    block[1] = 1;
    if (f->media.len > 0)
        block[LEAD] = f->media.at[0];
    if (f->item.len > 0)
        memcpy(field, f->item.at, f->item.len);
    field += f->item.len + 1;
    if (f->owner.len > 0)
        memcpy(field, f->owner.at, f->owner.len);
    if (f->usage != 0)
        block[size - 1] = f->usage;
    block[3] = xor_over(block, size);
}

/* Puts the basic block without its CRC over bytes of 00, and gives what goes to
   block 1. */
static void put_basic(const struct content *c, uint8_t *image, size_t tag_len,
                      struct fields *more)
{
    uint8_t usage = c->slot[USAGE].at[0];

    memset(more, 0, sizeof *more);
    image[0] = (uint8_t)((usage & 0xF0) | 1);
    image[1] = c->slot[SET].at[0];
    image[2] = c->slot[SET].at[2];
    if ((usage & 0x0F) != 0)
        more->usage = usage;
    more->media = c->slot[MEDIA];
    more->item = c->slot[ITEM2];
    if (c->slot[ITEM].len > ITEM_WIDTH) {
        image[ITEM_AT] = ELSEWHERE;
        more->item = c->slot[ITEM];
    } else if (c->slot[ITEM].len > 0) {
        memcpy(image + ITEM_AT, c->slot[ITEM].at, c->slot[ITEM].len);
    }
    if (!put_owner(c, image + OWNER_AT, owner_width(tag_len))) {
        image[OWNER_AT + 2] = ELSEWHERE;
        more->owner = c->slot[c->slot[ISIL].len > 0 ? ISIL : OWNER2];
    }
}

/* Lays a content out as a tag of tag_len bytes, but for its CRC: 10 and 11. */
static uint32_t lay_out(const struct content *c, uint8_t *image, size_t tag_len)
{
    size_t room = tag_len == SHORT_TAG ? 0 : tag_len - BASIC;
    size_t size;
    struct fields more;

    if (clashes(c))
        return URP_CLASH;
    memset(image, 0, tag_len);
    put_basic(c, image, tag_len, &more);
    size = block1_size(&more);
    if (size > BLOCK_MAX || size + c->carried.len > room)
        return URP_LARGE;

    if (size > 0)
        put_block1(image + BASIC, size, &more);
    if (c->carried.len > 0)
        memcpy(image + BASIC + size, c->carried.at, c->carried.len);
    return URP_DONE;
}

static void seal(uint8_t *image, size_t tag_len)
{
    put_low_first(image + CRC_AT, basic_crc(image, tag_len));
}

/* ---- storing ---- */

/* Counts the pages that differ; refuses where one of them is locked: 12. */
static uint32_t count_pages(const uint8_t *tag, const uint8_t *image,
                            size_t tag_len, const uint8_t *locks, size_t *count)
{
    size_t page, n = 0;

    for (page = 0; page < tag_len / URP_PAGE; page++) {
        size_t at = page * URP_PAGE;

        if (memcmp(tag + at, image + at, URP_PAGE) == 0)
            continue;
        if (locks[page])
            return URP_LOCKED;
        n++;
    }
    *count = n;
    return URP_DONE;
}

uint32_t urp_write(const uint8_t *sheet, size_t sheet_len,
                   uint8_t *tag, size_t tag_len,
                   const uint8_t *locks, size_t locks_len,
                   size_t *pages)
{
    struct content c;
    uint8_t image[URP_TAG_MAX];
    size_t count;
    uint32_t refusal;

    if (!is_tag_size(tag_len) || !is_lock_map(locks, locks_len, tag_len))
        return URP_SIZE;
    if (!is_sheet(sheet, sheet_len))
        return URP_SHEET;
    if (!take_entries(sheet, sheet_len, &c))
        return URP_VALUE;
    refusal = lay_out(&c, image, tag_len);
    if (refusal != URP_DONE)
        return refusal;
    seal(image, tag_len);
    if (count_pages(tag, image, tag_len, locks, &count) != URP_DONE)
        return URP_LOCKED;

    memcpy(tag, image, tag_len);
    *pages = count;
    return URP_DONE;
}

/* Whether the tag, whose CRC is right, is byte for byte what the writer lays
   down for its content; where all else is, the CRC is. A filler or block 1
   between carried blocks is nothing that it lays down. */
static int is_own_layout(const uint8_t *tag, size_t tag_len,
                         const struct content *c, const struct chain *chain,
                         uint8_t *image)
{
    if (chain->blocks > 0
        && chain->last + chain->last[0] != chain->first + chain->bytes)
        return 0;
    if (lay_out(c, image, tag_len) != URP_DONE)
        return 0;
    memcpy(image + CRC_AT, tag + CRC_AT, 2);
    return memcmp(tag, image, tag_len) == 0;
}

/* Whether these bytes may be set, or the element be removed: 9. */
static int is_edit(int slot, const uint8_t *value, size_t value_len)
{
    if (slot == SLOTS || value_len > URP_OLD_MAX)
        return 0;
    if (value_len == 0)
        return slot != SET && slot != USAGE;
    return is_value(slot, value, value_len);
}

uint32_t urp_edit(uint8_t *tag, size_t tag_len,
                  const uint8_t *locks, size_t locks_len,
                  uint32_t number,
                  const uint8_t *value, size_t value_len,
                  uint8_t *old, size_t old_len,
                  size_t *pages, size_t *old_used, size_t *place)
{
    struct content c;
    struct chain chain;
    struct span before;
    uint8_t image[URP_TAG_MAX];
    size_t count;
    int slot = slot_of(number);
    uint32_t refusal;

    if (!is_tag_size(tag_len) || !is_lock_map(locks, locks_len, tag_len))
        return URP_SIZE;
    refusal = take_tag(tag, tag_len, &c, &chain, place);
    if (refusal != URP_DONE)
        return refusal;
    if (!is_own_layout(tag, tag_len, &c, &chain, image))
        return URP_LOOSE;
    if (old_len < URP_OLD_MAX)
        return URP_ROOM;
    if (!is_edit(slot, value, value_len))
        return URP_VALUE;
    before = c.slot[slot];
    c.slot[slot] = span_of(value, value_len);
    refusal = lay_out(&c, image, tag_len);
    if (refusal != URP_DONE)
        return refusal;
    seal(image, tag_len);
    if (count_pages(tag, image, tag_len, locks, &count) != URP_DONE)
        return URP_LOCKED;

    /* before is a part of the tag: hand it out first */
    if (before.len > 0)
        memcpy(old, before.at, before.len);
    memcpy(tag, image, tag_len);
    *old_used = before.len;
    *pages = count;
    return URP_DONE;
}

/* ---- UHF words ---- */

enum {
    PAD = 0,
    WORD_OF_THREE_MIN = 1601,    /* A and two pads; below, a pad comes first */
    WORD_OF_THREE_MAX = 0xFA00,  /* 999 */
    ONE_CHARACTER = 0xFC00,      /* with the character in the low byte */
    CHARACTER_MAX = 0x7F
};

static const char value_characters[40 + 1] =
    "\0ABCDEFGHIJKLMNOPQRSTUVWXYZ-.:0123456789";

/* PAD for a character outside the 39. */
static const uint8_t character_values[CHARACTER_MAX + 1] = {
    0, 0, 0, 0, 0, 0, 0, 0, 0, 0, 0, 0, 0, 0, 0, 0,
    0, 0, 0, 0, 0, 0, 0, 0, 0, 0, 0, 0, 0, 0, 0, 0,
    0, 0, 0, 0, 0, 0, 0, 0, 0, 0, 0, 0, 0, 27, 28, 0,
    30, 31, 32, 33, 34, 35, 36, 37, 38, 39, 29, 0, 0, 0, 0, 0,
    0, 1, 2, 3, 4, 5, 6, 7, 8, 9, 10, 11, 12, 13, 14, 15,
    16, 17, 18, 19, 20, 21, 22, 23, 24, 25, 26, 0, 0, 0, 0, 0,
    0, 0, 0, 0, 0, 0, 0, 0, 0, 0, 0, 0, 0, 0, 0, 0,
    0, 0, 0, 0, 0, 0, 0, 0, 0, 0, 0, 0, 0, 0, 0, 0
};

/* The three values of a word of three. */
struct three {
    unsigned first;
    unsigned second;
    unsigned third;
};

static struct three three_of(uint16_t word)
{
    unsigned sum = word - 1u, before = sum / 40;
    struct three values;

    values.first = before / 40;
    values.second = before % 40;
    values.third = sum % 40;
    return values;
}

/* The count of characters that a word holds, 0 where it has no meaning. */
static size_t characters_in(uint16_t word)
{
    struct three values;

    if (word < WORD_OF_THREE_MIN || word > WORD_OF_THREE_MAX)
        return word >= ONE_CHARACTER && word <= ONE_CHARACTER + CHARACTER_MAX;
    values = three_of(word);
    if (values.second == PAD)
        return values.third == PAD ? 1 : 0;
    return values.third == PAD ? 2 : 3;
}

/* Puts the characters of a word that has a meaning, and gives their count. */
static size_t put_characters(uint8_t *text, uint16_t word)
{
    struct three values;

    if (word >= ONE_CHARACTER) {
        text[0] = (uint8_t)(word & 0xFF);
        return 1;
    }
    values = three_of(word);
    text[0] = (uint8_t)value_characters[values.first];
    if (values.second == PAD)
        return 1;
    text[1] = (uint8_t)value_characters[values.second];
    if (values.third == PAD)
        return 2;
    text[2] = (uint8_t)value_characters[values.third];
    return 3;
}

uint32_t urp_words_to_text(const uint16_t *words, size_t words_len,
                           uint8_t *text, size_t text_len,
                           size_t *used)
{
    size_t len = 0, i;

    for (i = 0; i < words_len; i++) {
        size_t count = characters_in(words[i]);

        if (count == 0)
            return URP_WORD;
        len += count;
    }
    if (text_len < len)
        return URP_ROOM;

    for (i = 0; i < words_len; i++)
        text += put_characters(text, words[i]);
    *used = len;
    return URP_DONE;
}

/* The count of words that a run of the 39 takes. */
static size_t words_of_run(size_t run)
{
    return (run + 2) / 3;
}

/* Counts the words of a text: 21. */
static uint32_t count_words(const uint8_t *text, size_t text_len,
                            size_t *count)
{
    size_t n = 0, run = 0, i;

    for (i = 0; i < text_len; i++) {
        if (text[i] > CHARACTER_MAX)
            return URP_CHARACTER;
        if (character_values[text[i]] != PAD) {
            run++;
        } else {
            n += words_of_run(run) + 1;
            run = 0;
        }
    }
    *count = n + words_of_run(run);
    return URP_DONE;
}

/* The value at a place of the text; PAD behind its end, and where a character
   outside the 39 stands. */
static unsigned value_at(const uint8_t *text, size_t text_len, size_t at)
{
    return at < text_len ? character_values[text[at]] : PAD;
}

static void put_words(uint16_t *words, const uint8_t *text, size_t text_len)
{
    size_t at = 0;

    while (at < text_len) {
        unsigned first = character_values[text[at]], second, third = PAD;

        if (first == PAD) {
            *words++ = (uint16_t)(ONE_CHARACTER + text[at++]);
            continue;
        }
        at++;
        second = value_at(text, text_len, at);
        if (second != PAD) {
            at++;
            third = value_at(text, text_len, at);
            if (third != PAD)
                at++;
        }
        *words++ = (uint16_t)(1600 * first + 40 * second + third + 1);
    }
}

uint32_t urp_text_to_words(const uint8_t *text, size_t text_len,
                           uint16_t *words, size_t words_len,
                           size_t *used)
{
    size_t count;

    if (count_words(text, text_len, &count) != URP_DONE)
        return URP_CHARACTER;
    if (words_len < count)
        return URP_ROOM;

    put_words(words, text, text_len);
    *used = count;
    return URP_DONE;
}

/* ---- the identifier of a UHF tag ---- */

enum {
    PARTS_MAX = 3,
    DIGITS_MAX = 3  /* of a total, and of an ordinal */
};

/* Cuts an identifier at its dots and gives the count of its parts; above
   PARTS_MAX they are not all there. */
static size_t cut(struct span rest, struct span *parts)
{
    size_t count = 0;

    do {
        if (count == PARTS_MAX)
            return PARTS_MAX + 1;
        parts[count++] = next_field(&rest, '.');
    } while (rest.at != NULL);
    return count;
}

static int is_item(const uint8_t *bytes, size_t len)
{
    return len >= 1 && len <= URP_ITEM_MAX && is_text(bytes, len);
}

static int points_elsewhere(struct span part)
{
    return part.len == 1 && part.at[0] == 'S';
}

/* The count of digits for the total of a set, and for its ordinal. */
static size_t digits_for(unsigned total)
{
    return total <= 9 ? 1 : total <= 99 ? 2 : DIGITS_MAX;
}

static int take_number(const uint8_t *digits, size_t len, unsigned *number)
{
    size_t i;

    *number = 0;
    for (i = 0; i < len; i++) {
        if (digits[i] < '0' || digits[i] > '9')
            return 0;
        *number = 10 * *number + digits[i] - '0';
    }
    return 1;
}

/* Takes the digits of a total and of an ordinal into element 4. */
static int take_set(struct span part, uint8_t *set)
{
    size_t len = part.len / 2;
    unsigned total, ordinal;

    if (part.len % 2 != 0 || len > DIGITS_MAX
        || !take_number(part.at, len, &total)
        || !take_number(part.at + len, len, &ordinal))
        return 0;
    if (total < 1 || total > 255 || digits_for(total) != len || ordinal > total)
        return 0;
    put_low_first(set, total);
    put_low_first(set + 2, ordinal);
    return 1;
}

/* Judges the parts, of which number item is the item identifier, and gives
   element 4: 6, and 23, for which all before the S has to be good. */
static uint32_t take_parts(const struct span *parts, size_t count, size_t item,
                           uint8_t *set)
{
    if (item == 1 && !is_isil(parts[0].at, parts[0].len))
        return URP_FIELD;
    if (!is_item(parts[item].at, parts[item].len))
        return URP_FIELD;
    memset(set, 0, URP_SET_MAX);
    if (count == item + 1)
        return URP_DONE;
    if (points_elsewhere(parts[item + 1]))
        return URP_BANK;
    return take_set(parts[item + 1], set) ? URP_DONE : URP_FIELD;
}

uint32_t urp_take_apart(const uint8_t *text, size_t text_len,
                        uint32_t isil_leads, uint8_t *item, size_t item_len,
                        uint8_t *isil, size_t isil_len, uint8_t *set,
                        size_t set_len, size_t *item_used, size_t *isil_used,
                        size_t *set_used)
{
    struct span parts[PARTS_MAX];
    size_t lead = isil_leads != 0, owner_len;
    size_t count = cut(span_of(text, text_len), parts);
    uint8_t numbers[URP_SET_MAX];
    uint32_t refusal;

    if (count < lead + 1 || count > lead + 2)
        return URP_PARTS;
    refusal = take_parts(parts, count, lead, numbers);
    if (refusal != URP_DONE)
        return refusal;
    owner_len = lead ? parts[0].len : 0;
    if (item_len < parts[lead].len || isil_len < owner_len
        || set_len < URP_SET_MAX)
        return URP_ROOM;

    memcpy(item, parts[lead].at, parts[lead].len);
    if (owner_len > 0)
        memcpy(isil, parts[0].at, owner_len);
    memcpy(set, numbers, URP_SET_MAX);
    *item_used = parts[lead].len;
    *isil_used = owner_len;
    *set_used = URP_SET_MAX;
    return URP_DONE;
}

static uint8_t *put_bytes(uint8_t *at, const uint8_t *bytes, size_t len)
{
    memcpy(at, bytes, len);
    return at + len;
}

static uint8_t *put_number(uint8_t *at, size_t digits, unsigned number)
{
    size_t i;

    for (i = digits; i > 0; i--) {
        at[i - 1] = (uint8_t)('0' + number % 10);
        number /= 10;
    }
    return at + digits;
}

uint32_t urp_put_together(const uint8_t *item, size_t item_len,
                          const uint8_t *isil, size_t isil_len,
                          const uint8_t *set, size_t set_len,
                          uint8_t *text, size_t text_len,
                          size_t *used)
{
    size_t len = item_len, digits;

    if (!is_item(item, item_len) || memchr(item, '.', item_len) != NULL
        || (isil_len > 0 && !is_isil(isil, isil_len))
        || !is_set(set, set_len))
        return URP_VALUE;
    digits = digits_for(set[0]);
    if (isil_len > 0)
        len += isil_len + 1;
    if (set[0] > 0)
        len += 1 + 2 * digits;
    if (text_len < len)
        return URP_ROOM;

    if (isil_len > 0) {
        text = put_bytes(text, isil, isil_len);
        *text++ = '.';
    }
    text = put_bytes(text, item, item_len);
    if (set[0] > 0) {
        *text++ = '.';
        text = put_number(text, digits, set[0]);
        put_number(text, digits, set[2]);
    }
    *used = len;
    return URP_DONE;
}

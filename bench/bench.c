/* bench.c: libraries with the calls of urpanella.h, A (urp_read, ..), B
   (plain_read, ..) and, where WITH_RUST is defined, C (rust_read, ..), on the
   same inputs in one run.
     bench time REPETITIONS     medians: nanoseconds for each call, A / B, A / C
     bench names                the rows of the table, one to a line
     bench calls A|B|C          each row's two calls once, for a counter of
                                instructions: nothing else calls that library
   Before anything is timed all must give the same answers and bytes. */
#define _POSIX_C_SOURCE 199309L
#include "urpanella.h"

#include <stdio.h>
#include <stdlib.h>
#include <string.h>
#include <time.h>

typedef uint32_t read_call(const uint8_t *, size_t, uint8_t *, size_t,
                           size_t *, size_t *);
typedef uint32_t write_call(const uint8_t *, size_t, uint8_t *, size_t,
                            const uint8_t *, size_t, size_t *);
typedef uint32_t edit_call(uint8_t *, size_t, const uint8_t *, size_t,
                           uint32_t, const uint8_t *, size_t,
                           uint8_t *, size_t, size_t *, size_t *, size_t *);
typedef uint32_t to_text_call(const uint16_t *, size_t, uint8_t *, size_t,
                              size_t *);
typedef uint32_t to_words_call(const uint8_t *, size_t, uint16_t *, size_t,
                               size_t *);
typedef uint32_t apart_call(const uint8_t *, size_t, uint32_t,
                            uint8_t *, size_t, uint8_t *, size_t,
                            uint8_t *, size_t, size_t *, size_t *, size_t *);
typedef uint32_t together_call(const uint8_t *, size_t, const uint8_t *, size_t,
                               const uint8_t *, size_t, uint8_t *, size_t,
                               size_t *);

extern read_call plain_read;
extern write_call plain_write;
extern edit_call plain_edit;
extern to_text_call plain_words_to_text;
extern to_words_call plain_text_to_words;
extern apart_call plain_take_apart;
extern together_call plain_put_together;

#ifdef WITH_RUST
extern read_call rust_read;
extern write_call rust_write;
extern edit_call rust_edit;
extern to_text_call rust_words_to_text;
extern to_words_call rust_text_to_words;
extern apart_call rust_take_apart;
extern together_call rust_put_together;
#endif

struct library {
    read_call *read;
    write_call *write;
    edit_call *edit;
    to_text_call *to_text;
    to_words_call *to_words;
    apart_call *apart;
    together_call *together;
};

static const struct library libraries[] = {
    { urp_read, urp_write, urp_edit, urp_words_to_text, urp_text_to_words,
      urp_take_apart, urp_put_together },
    { plain_read, plain_write, plain_edit, plain_words_to_text,
      plain_text_to_words, plain_take_apart, plain_put_together },
#ifdef WITH_RUST
    { rust_read, rust_write, rust_edit, rust_words_to_text,
      rust_text_to_words, rust_take_apart, rust_put_together },
#endif
};

enum { A, B };

enum { LIBRARIES = sizeof libraries / sizeof libraries[0] };

enum { MOST_REPETITIONS = 1001, SLICE_NS = 200000, CALIBRATIONS = 5 };

/* Of a tag, the blocks behind its first 34 bytes, or that its texts have
   accents; of a text, its characters, all of the 39 or others among them; of an
   identifier, its parts: an item alone, of bytes 20 to 7E or of letters up to
   four bytes long, or an ISIL, an item and so many digits. The last three are
   refused: a dot in the item, an ordinal above the total, an S. */
enum kind {
    NONE, FEW, ACCENTS, LONG, MANY, BROKEN, CODE40, MIXED,
    ITEM, LETTERS, SET2, SET4, SET6, DOT, ABOVE, OTHER_BANK
};

static const char *const kind_names[] = {
    "none", "few", "accents", "long", "many", "broken", "code40", "mixed",
    "item", "letters", "set2", "set4", "set6", "dot", "above", "bank"
};

static const struct row {
    size_t len;
    enum kind kind;
} rows[] = {
    { 32, NONE }, { 112, FEW }, { 112, ACCENTS }, { 112, MANY }, { 256, FEW },
    { 256, ACCENTS }, { 256, MANY }, { 256, BROKEN }, { 2048, FEW },
    { 2048, LONG }, { 2048, MANY }, { 24, CODE40 }, { 255, CODE40 },
    { 255, MIXED }, { 10, ITEM }, { 23, SET2 }, { 25, SET4 }, { 27, SET6 },
    { 255, ITEM }, { 255, LETTERS }, { 279, SET6 }, { 27, DOT }, { 27, ABOVE },
    { 22, OTHER_BANK }
};

enum { ROWS = sizeof rows / sizeof rows[0] };

enum call { READ, WRITE, EDIT, TO_TEXT, TO_WORDS, APART, TOGETHER, CALLS };

static const char *const call_names[CALLS] = {
    "read", "write", "edit", "to_text", "to_words", "apart", "together"
};

enum {
    BROKEN_BYTES = 6,  /* the length of the broken block, the last */
    TEXT_MAX = URP_IDENTIFIER_MAX
};

struct sheet {
    uint8_t bytes[URP_SHEET_MAX];
    size_t len;
};

/* Elements 1, 3 and 4 of an identifier. */
struct elements {
    uint8_t item[URP_ITEM_MAX];
    size_t item_len;
    uint8_t isil[URP_ISIL_MAX];
    size_t isil_len;
    uint8_t set[URP_SET_MAX];
    size_t set_len;
};

/* The inputs of one row, and the answers to its calls. Calls take the two of
   each kind in turn, so that each write and each edit changes the tag. */
struct inputs {
    uint32_t answers[CALLS];
    size_t tag_len;
    uint8_t locks[URP_LOCKS_MAX];
    struct sheet sheets[2];
    uint8_t tags[2][URP_TAG_MAX];
    uint32_t number;
    uint8_t values[2][URP_OLD_MAX];
    size_t value_lens[2];
    uint8_t texts[2][TEXT_MAX];
    size_t text_len;
    uint16_t words[2][TEXT_MAX];
    size_t words_lens[2];
    struct elements elements[2];
};

/* What the calls of a row work on and leave. */
struct outputs {
    uint8_t tag[URP_TAG_MAX];
    uint8_t sheet[URP_SHEET_MAX];
    uint8_t old[URP_OLD_MAX];
    uint8_t text[3 * TEXT_MAX];
    uint16_t words[TEXT_MAX];
    struct elements elements;
    size_t len;
    size_t pages;
    size_t place;
    uint32_t wrong;  /* 0 if every answer was the row's */
};

static void stop(const char *message)
{
    fprintf(stderr, "bench: %s\n", message);
    exit(1);
}

static void stop_at(const struct row *row, enum call call, int library,
                    const char *message)
{
    fprintf(stderr, "bench: %s, %lu bytes, %s: %c %s\n",
            call_names[call], (unsigned long)row->len,
            kind_names[row->kind], 'A' + library, message);
    exit(1);
}

/* ---- inputs ---- */

struct entry {
    uint8_t number;
    const uint8_t *bytes;
    size_t len;
};

static void make_sheet(struct sheet *s, const struct entry *entries,
                       size_t count)
{
    size_t place = 2 + 4 * count, i;

    s->bytes[0] = (uint8_t)(count & 0xFF);
    s->bytes[1] = (uint8_t)(count >> 8);
    for (i = 0; i < count; i++) {
        uint8_t *head = s->bytes + 2 + 4 * i;

        head[0] = entries[i].number;
        head[1] = (uint8_t)(place & 0xFF);
        head[2] = (uint8_t)(place >> 8);
        head[3] = (uint8_t)entries[i].len;
        memcpy(s->bytes + place, entries[i].bytes, entries[i].len);
        place += entries[i].len;
    }
    s->len = place;
}

/* A carried block of size bytes; IDs up to 100 have a checksum at byte 3. */
static void make_block(uint8_t *block, size_t size, unsigned id)
{
    size_t i;
    uint8_t x = 0;

    for (i = 0; i < size; i++)
        block[i] = (uint8_t)(7 * i + size);
    block[0] = (uint8_t)size;
    block[1] = (uint8_t)(id & 0xFF);
    block[2] = (uint8_t)(id >> 8);
    if (id > 100)
        return;
    block[3] = 0;
    for (i = 0; i < size; i++)
        x ^= block[i];
    block[3] = x;
}

/* Adds carried blocks of size bytes while they fit into room. */
static size_t add_blocks(struct entry *entries, size_t count, uint8_t *store,
                         size_t size, unsigned id, size_t room)
{
    make_block(store, size, id);
    for (; room >= size; room -= size) {
        entries[count].number = URP_ELEMENT_CARRIED;
        entries[count].bytes = store;
        entries[count].len = size;
        count++;
    }
    return count;
}

static size_t add(struct entry *entries, size_t count, uint8_t number,
                  const void *bytes, size_t len)
{
    entries[count].number = number;
    entries[count].bytes = (const uint8_t *)bytes;
    entries[count].len = len;
    return count + 1;
}

static int has_block1(const struct row *row)
{
    return row->kind == FEW || row->kind == ACCENTS;
}

/* How often a tag has what one of 112 bytes has once. */
static size_t times_in(const struct row *row)
{
    return row->len > 112 ? 3 : 1;
}

/* The sheet number 0 or 1 of a row: elements 1, 3, 4 and 5 in the first 34
   bytes; for FEW and ACCENTS also block 1 with 19, 22 and a sub qualifier; for
   FEW one or three blocks of 34 bytes; for LONG blocks of 251 bytes, for MANY
   of 3, as many as fit; for BROKEN as for MANY, and behind them the block to be
   broken. */
static void make_row_sheet(const struct row *row, int which, struct inputs *in)
{
    static const char *const plain[2] = { "1000000056", "2000000136" };
    static const char *const accents[2] = {
        "B\303\274cher\342\200\223Regal",
        "\304\214\303\255tanka \303\206r\303\270"
    };
    static struct entry entries[1 + 7 + URP_TAG_MAX / 3];
    static uint8_t store[URP_OLD_MAX];
    const char *item = (row->kind == ACCENTS ? accents : plain)[which];
    size_t room = row->len > 34 ? row->len - 34 : 0, n = 0;

    n = add(entries, n, 1, item, strlen(item));
    n = add(entries, n, 3, "DK-718500", 9);
    n = add(entries, n, 4, "\001\000\001\000", 4);
    n = add(entries, n, 5, has_block1(row) ? "\021" : "\020", 1);
    if (has_block1(row)) {
        n = add(entries, n, 19, "\001", 1);
        n = add(entries, n, 22, in->values[1], in->value_lens[1]);
    }
    if (row->kind == FEW)
        n = add_blocks(entries, n, store, 34, 2, times_in(row) * 34);
    if (row->kind == LONG)
        n = add_blocks(entries, n, store, 251, 3, room);
    if (row->kind == MANY)
        n = add_blocks(entries, n, store, 3, 300, room);
    if (row->kind == BROKEN) {
        n = add_blocks(entries, n, store, 3, 300, room - BROKEN_BYTES);
        n = add_blocks(entries, n, store + 3, BROKEN_BYTES, 2, BROKEN_BYTES);
    }
    make_sheet(&in->sheets[which], entries, n);
}

/* Edits change the length of block 1, and so move the other blocks of a FEW
   tag; where there is no block 1 they change the first 34 bytes. The second
   value is the one that the sheets have. Those of ACCENTS are German, Danish,
   Czech and Greek words, with a dash of three bytes and a clef of four. */
static void make_values(const struct row *row, struct inputs *in)
{
    static const char *const plain[2] = { "3000000099", "1000000056" };
    static const char *const few[2] = { "978-3-16", "978-3-16-148" };
    static const char *const accents[2] = {
        "\303\234bergr\303\266\303\237e\342\200\223\303\226l, \303\205lborg, "
        "P\305\231\303\255b\304\233hy, "
        "\316\221\316\270\316\256\316\275\316\261 \360\235\204\236; ",
        "Stra\303\237e\342\200\223B\303\274cher, \303\206r\303\270, "
        "\304\214e\305\241tina pro d\304\233ti, "
        "\316\225\316\273\316\273\316\267\316\275\316\271\316\272\316\254 "
        "\360\235\204\236; "
    };
    const char *const *texts = row->kind == FEW ? few
        : row->kind == ACCENTS ? accents : plain;
    size_t times = row->kind == ACCENTS ? times_in(row) : 1, i;
    int which;

    in->number = has_block1(row) ? 22 : 1;
    for (which = 0; which < 2; which++) {
        size_t len = strlen(texts[which]);

        for (i = 0; i < times; i++)
            memcpy(in->values[which] + i * len, texts[which], len);
        in->value_lens[which] = times * len;
    }
}

/* The broken block ends a BROKEN tag, and its checksum is made to differ. */
static void make_tags(const struct row *row, const struct library *by,
                      struct inputs *in)
{
    int which;
    size_t pages;

    in->tag_len = row->len;
    make_values(row, in);
    for (which = 0; which < 2; which++) {
        make_row_sheet(row, which, in);
        if (by->write(in->sheets[which].bytes, in->sheets[which].len,
                      in->tags[which], in->tag_len, in->locks,
                      in->tag_len / URP_PAGE, &pages) != URP_DONE)
            stop("a row's sheet is refused");
        if (row->kind == BROKEN)
            in->tags[which][in->tag_len - 1] ^= 1;
    }
}

/* A string's bytes, over and over. */
static void repeat(uint8_t *bytes, size_t len, const char *again)
{
    size_t size = strlen(again), i;

    for (i = 0; i < len; i++)
        bytes[i] = (uint8_t)again[i % size];
}

/* A text is one of these over and over. The first 24 characters of a CODE40 one
   are an owner, an identifier and a set; its length is no multiple of 3, so
   that the words do not soon repeat. In a MIXED one a quarter to a half of the
   characters are outside the 39, with no, one or two pads before them. */
static void make_texts(const struct row *row, const struct library *by,
                       struct inputs *in)
{
    static const char *const code40[2] = {
        "CH-000134-1.123456789.31:", "DK-718500-2.100000056.21:"
    };
    static const char *const mixed[2] = {
        "DK-718500/12.Kbh/a-3.41 b", "US-InU-Mu/2.Vol/b-7;new"
    };
    int which;

    in->text_len = row->len;
    for (which = 0; which < 2; which++) {
        repeat(in->texts[which], row->len,
               (row->kind == MIXED ? mixed : code40)[which]);
        if (by->to_words(in->texts[which], row->len, in->words[which],
                         TEXT_MAX, &in->words_lens[which]) != URP_DONE)
            stop("a row's text is refused");
    }
}

static int has_isil(const struct row *row)
{
    return row->kind != ITEM && row->kind != LETTERS;
}

/* Puts what stands behind the item identifier, and gives its length; sets
   element 4. */
static size_t make_set(const struct row *row, int which, uint8_t *set,
                       char *part)
{
    static const struct {
        int digits;
        unsigned total, ordinal;
    } sets[][2] = {
        { { 1, 3, 1 }, { 1, 9, 0 } },
        { { 2, 12, 7 }, { 2, 99, 10 } },
        { { 3, 120, 7 }, { 3, 254, 254 } }
    };
    int i = row->kind == SET2 ? 0 : row->kind == SET4 ? 1 : 2;
    unsigned total = sets[i][which].total, ordinal = sets[i][which].ordinal;

    if (!has_isil(row))
        return 0;
    if (row->kind == OTHER_BANK)
        return (size_t)sprintf(part, ".S");
    if (row->kind == ABOVE)
        ordinal = total + 1;
    set[0] = (uint8_t)total;
    set[2] = (uint8_t)ordinal;
    return (size_t)sprintf(part, ".%0*u%0*u", sets[i][which].digits, total,
                           sets[i][which].digits, ordinal);
}

/* An identifier of the row's length and its elements: the item identifier takes
   what the rest leaves. Letters are 51 or 17 bytes over and over, so that none
   of 255 is cut. */
static void make_identifier(const struct row *row, int which, uint8_t *text,
                            struct elements *e)
{
    static const char *const isils[2] = { "CH-000134-1", "DK-718500-2" };
    static const char *const long_isils[2] = {
        "OCLC-12345678901", "NUKA-Aa/Bb:Cc-Dd"
    };
    static const char *const items[2] = { "1000000056-", "LIB-2024/" };
    static const char *const letters[2] = {
        "B\303\274cher\342\200\223Regal; "
        "\304\214\303\255tanka \303\206r\303\270, "
        "\316\221\316\270\316\256\316\275\316\261 \360\235\204\236; ",
        "\303\234bergr\303\266\303\237e\342\200\22312"
    };
    const char *isil = (row->len > URP_ITEM_MAX ? long_isils : isils)[which];
    char part[1 + 6 + 1];
    size_t lead = has_isil(row) ? strlen(isil) + 1 : 0;
    size_t behind = make_set(row, which, e->set, part);

    e->isil_len = lead > 0 ? lead - 1 : 0;
    e->item_len = row->len - lead - behind;
    e->set_len = URP_SET_MAX;
    memcpy(e->isil, isil, e->isil_len);
    repeat(e->item, e->item_len,
           (row->kind == LETTERS ? letters : items)[which]);
    if (row->kind == DOT)
        e->item[e->item_len / 2] = '.';

    memcpy(text, e->isil, e->isil_len);
    if (lead > 0)
        text[lead - 1] = '.';
    memcpy(text + lead, e->item, e->item_len);
    memcpy(text + lead + e->item_len, part, behind);
}

static void make_identifiers(const struct row *row, struct inputs *in)
{
    int which;

    in->text_len = row->len;
    for (which = 0; which < 2; which++)
        make_identifier(row, which, in->texts[which], &in->elements[which]);
}

static int is_text_row(const struct row *row)
{
    return row->kind == CODE40 || row->kind == MIXED;
}

static int is_identifier_row(const struct row *row)
{
    return row->kind >= ITEM;
}

/* The answers that are no URP_DONE. */
static void make_answers(const struct row *row, uint32_t *answers)
{
    if (row->kind == BROKEN)
        answers[READ] = URP_BLOCK_CHECKSUM;
    if (row->kind == DOT)
        answers[APART] = URP_PARTS;
    if (row->kind == ABOVE)
        answers[APART] = URP_FIELD;
    if (row->kind == OTHER_BANK)
        answers[APART] = URP_BANK;
    if (row->kind == DOT || row->kind == ABOVE)
        answers[TOGETHER] = URP_VALUE;
}

static void make_inputs(const struct row *row, const struct library *by,
                        struct inputs *in)
{
    memset(in, 0, sizeof *in);
    make_answers(row, in->answers);
    if (is_identifier_row(row))
        make_identifiers(row, in);
    else if (is_text_row(row))
        make_texts(row, by, in);
    else
        make_tags(row, by, in);
}

/* ---- calls ---- */

/* The calls that are made of a row, from the first to before the end: a broken
   tag is only read, and no elements give an S. */
static int first_call(const struct row *row)
{
    if (is_identifier_row(row))
        return APART;
    return is_text_row(row) ? TO_TEXT : READ;
}

static int end_of_calls(const struct row *row)
{
    if (is_identifier_row(row))
        return row->kind == OTHER_BANK ? APART + 1 : TOGETHER + 1;
    if (is_text_row(row))
        return TO_WORDS + 1;
    return row->kind == BROKEN ? READ + 1 : EDIT + 1;
}

static void begin(struct outputs *out, const struct inputs *in)
{
    memset(out, 0, sizeof *out);
    memcpy(out->tag, in->tags[0], in->tag_len);
}

/* Makes a call with the inputs number k, 0 or 1. It is no tail call: a counter
   of instructions sees its end where this function goes on. */
static void make_call(const struct library *lib, enum call call,
                      const struct inputs *in, struct outputs *out, size_t k)
{
    size_t locks_len = in->tag_len / URP_PAGE;
    const struct elements *from = &in->elements[k];
    struct elements *to = &out->elements;
    uint32_t answer = URP_DONE;

    switch (call) {
    case READ:
        answer = lib->read(in->tags[k], in->tag_len, out->sheet,
                           sizeof out->sheet, &out->len, &out->place);
        break;
    case WRITE:  /* the tag holds sheet 0: begin with 1 */
        answer = lib->write(in->sheets[1 - k].bytes, in->sheets[1 - k].len,
                            out->tag, in->tag_len, in->locks, locks_len,
                            &out->pages);
        break;
    case EDIT:
        answer = lib->edit(out->tag, in->tag_len, in->locks, locks_len,
                           in->number, in->values[k], in->value_lens[k],
                           out->old, sizeof out->old, &out->pages,
                           &out->len, &out->place);
        break;
    case TO_TEXT:
        answer = lib->to_text(in->words[k], in->words_lens[k], out->text,
                              sizeof out->text, &out->len);
        break;
    case TO_WORDS:
        answer = lib->to_words(in->texts[k], in->text_len, out->words,
                               TEXT_MAX, &out->len);
        break;
    case APART:
        answer = lib->apart(in->texts[k], in->text_len, from->isil_len > 0,
                            to->item, sizeof to->item, to->isil,
                            sizeof to->isil, to->set, sizeof to->set,
                            &to->item_len, &to->isil_len, &to->set_len);
        break;
    case TOGETHER:
        answer = lib->together(from->item, from->item_len, from->isil,
                               from->isil_len, from->set, from->set_len,
                               out->text, sizeof out->text, &out->len);
        break;
    case CALLS:
        break;
    }
    out->wrong |= answer ^ in->answers[call];
}

/* Makes a call `turns` times, the inputs in turn from the first on. */
static void make_calls(const struct library *lib, enum call call,
                       const struct inputs *in, struct outputs *out,
                       size_t turns)
{
    size_t i;

    for (i = 0; i < turns; i++)
        make_call(lib, call, in, out, i % 2);
}

/* Whether a call that was made `turns` times has done nothing: a write or edit
   has changed no page, words or elements have not become the text that they are
   made of. */
static int is_idle(enum call call, const struct inputs *in,
                   const struct outputs *out, size_t turns)
{
    if (in->answers[call] != URP_DONE)
        return 0;
    if (call == WRITE || call == EDIT)
        return out->pages == 0;
    if (call == TO_TEXT || call == TOGETHER)
        return memcmp(out->text, in->texts[turns - 1], in->text_len) != 0;
    if (call == APART)
        return out->elements.item_len != in->elements[turns - 1].item_len;
    return call == TO_WORDS && out->len == 0;
}

/* All libraries must do the same, and do something where they should. */
static void compare(const struct row *row, enum call call,
                    const struct inputs *in)
{
    static struct outputs out[LIBRARIES];
    size_t turns;
    int i;

    for (turns = 1; turns <= 2; turns++) {
        for (i = A; i < LIBRARIES; i++) {
            begin(&out[i], in);
            make_calls(&libraries[i], call, in, &out[i], turns);
            if (out[i].wrong != 0)
                stop_at(row, call, i, "gives a wrong answer");
            if (is_idle(call, in, &out[i], turns))
                stop_at(row, call, i, "does nothing");
            if (memcmp(&out[i], &out[A], sizeof out[i]) != 0)
                stop_at(row, call, i, "leaves other bytes than A");
        }
    }
}

/* ---- times ---- */

static double now_ns(void)
{
    struct timespec t;

    if (clock_gettime(CLOCK_MONOTONIC, &t) != 0)
        stop("no clock");
    return 1e9 * (double)t.tv_sec + (double)t.tv_nsec;
}

/* Nanoseconds for each of an even count of calls. */
static double slice(const struct library *lib, enum call call,
                    const struct inputs *in, struct outputs *out, size_t turns)
{
    double start = now_ns();

    make_calls(lib, call, in, out, turns);
    return (now_ns() - start) / (double)turns;
}

static int by_size(const void *x, const void *y)
{
    double a = *(const double *)x, b = *(const double *)y;

    return (a > b) - (a < b);
}

static double median(double *times, size_t count)
{
    qsort(times, count, sizeof *times, by_size);
    return times[count / 2];
}

static void print_name(const struct row *row, enum call call)
{
    printf("%5lu  %-7s  %-8s", (unsigned long)row->len,
           kind_names[row->kind], call_names[call]);
}

/* The even count of calls that takes about as long for every library, so that
   other work on the machine breaks into all slices alike. The shortest of a few
   slices is one that it has not broken into. */
static size_t calibrate(const struct library *lib, enum call call,
                        const struct inputs *in, struct outputs *out)
{
    size_t turns = 1;
    double least;
    int tries;

    do {
        turns *= 2;
        least = slice(lib, call, in, out, turns);
        for (tries = 1; tries < CALIBRATIONS; tries++) {
            double again = slice(lib, call, in, out, turns);

            if (again < least)
                least = again;
        }
    } while ((double)turns * least < SLICE_NS);
    return turns;
}

/* Times one call of one row: the libraries take turns, and so does who is first.
   A ratio is the median of those of neighbouring slices. */
static void time_call(const struct row *row, enum call call,
                      const struct inputs *in, size_t repetitions)
{
    static struct outputs out;
    static double times[LIBRARIES][MOST_REPETITIONS];
    static double ratios[LIBRARIES][MOST_REPETITIONS];
    size_t turns[LIBRARIES], i;
    int k;

    begin(&out, in);
    for (k = A; k < LIBRARIES; k++)
        turns[k] = calibrate(&libraries[k], call, in, &out);
    for (i = 0; i < repetitions; i++) {
        for (k = A; k < LIBRARIES; k++) {
            size_t which = (i + (size_t)k) % LIBRARIES;

            times[which][i] = slice(&libraries[which], call, in, &out,
                                    turns[which]);
            if (out.wrong != 0)
                stop_at(row, call, (int)which, "answers a timed call wrongly");
        }
        for (k = B; k < LIBRARIES; k++)
            ratios[k][i] = times[A][i] / times[k][i];
    }
    print_name(row, call);
    for (k = A; k < LIBRARIES; k++)
        printf("  %9.0f", median(times[k], repetitions));
    for (k = B; k < LIBRARIES; k++)
        printf("  %6.2f", median(ratios[k], repetitions));
    printf("\n");
}

/* ---- the three commands ---- */

static void time_all(size_t repetitions)
{
    static struct inputs in;
    size_t r;
    int call;

    for (r = 0; r < ROWS; r++) {
        make_inputs(&rows[r], &libraries[B], &in);
        for (call = first_call(&rows[r]); call < end_of_calls(&rows[r]);
             call++) {
            compare(&rows[r], (enum call)call, &in);
            time_call(&rows[r], (enum call)call, &in, repetitions);
        }
    }
}

static void print_names(void)
{
    size_t r;
    int call;

    for (r = 0; r < ROWS; r++) {
        for (call = first_call(&rows[r]); call < end_of_calls(&rows[r]);
             call++) {
            print_name(&rows[r], (enum call)call);
            printf("\n");
        }
    }
}

/* Another library makes the inputs. */
static void call_all(int which)
{
    static struct inputs in;
    static struct outputs out;
    size_t r;
    int call;

    for (r = 0; r < ROWS; r++) {
        make_inputs(&rows[r], &libraries[which == A ? B : A], &in);
        for (call = first_call(&rows[r]); call < end_of_calls(&rows[r]);
             call++) {
            begin(&out, &in);
            make_calls(&libraries[which], (enum call)call, &in, &out, 2);
            if (out.wrong != 0)
                stop_at(&rows[r], (enum call)call, which,
                        "gives a wrong answer");
        }
    }
}

static int is_command(int argc, char **argv, int words, const char *name)
{
    return argc == words && strcmp(argv[1], name) == 0;
}

int main(int argc, char **argv)
{
    if (is_command(argc, argv, 2, "names")) {
        print_names();
    } else if (is_command(argc, argv, 3, "calls")) {
        int which = argv[2][0] - 'A';

        if (which < A || which >= LIBRARIES)
            stop("no such library");
        call_all(which);
    } else if (is_command(argc, argv, 3, "time")) {
        unsigned long repetitions = strtoul(argv[2], NULL, 10);

        if (repetitions < 1 || repetitions > MOST_REPETITIONS)
            stop("1 to 1001 repetitions");
        time_all((size_t)repetitions);
    } else {
        stop("usage: bench time REPETITIONS | names | calls A|B|C");
    }
    return 0;
}

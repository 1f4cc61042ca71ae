/* desk.c: a small host for the desk, in C89. It keeps tags in files, one file
   for each tag, and calls the library to list, write, edit and undo them. Of a
   UHF tag's identifier it makes the words and reads them, takes it apart and
   puts it together, and lays it out on a tag.
   Ends with 0 when the work is done, 1 when the library refused it, and 2 at
   bad usage or a file that cannot be used. */
#include "urpanella.h"
#include "desk_io.h"

#include <stdio.h>
#include <string.h>

/* ---- tags ---- */

/* Reads a tag into a sheet with the room that always suffices. */
static int read_tag(const struct tag *tag, uint8_t *sheet, size_t *used)
{
    size_t place;
    uint32_t answer = urp_read(tag->bytes, tag->len, sheet, URP_SHEET_MAX,
                               used, &place);

    return answer == URP_DONE ? DONE : refused_at(answer, &place);
}

static int show_tag(const struct tag *tag)
{
    uint8_t sheet[URP_SHEET_MAX];
    size_t used;
    int status = read_tag(tag, sheet, &used);

    if (status == DONE)
        show_sheet(sheet);
    return status;
}

static int list(const char *tag_path)
{
    struct tag tag;

    if (load_tag(tag_path, "-", &tag) != DONE)
        return TROUBLE;
    return show_tag(&tag);
}

static int write_sheet(const char *tag_path, const char *locks_path,
                       const uint8_t *sheet, size_t sheet_len)
{
    struct tag tag;
    size_t pages;
    uint32_t answer;

    if (load_tag(tag_path, locks_path, &tag) != DONE)
        return TROUBLE;
    answer = urp_write(sheet, sheet_len, tag.bytes, tag.len,
                       tag.locks, tag.locks_len, &pages);
    if (answer != URP_DONE)
        return refused(answer);
    if (pages > 0 && save(tag_path, tag.bytes, tag.len) != DONE)
        return TROUBLE;
    printf("pages changed %lu\n", (unsigned long)pages);
    return DONE;
}

static int write_file(const char *tag_path, const char *locks_path,
                      const char *sheet_path)
{
    uint8_t sheet[URP_SHEET_MAX + 1];
    size_t len;

    if (load(sheet_path, sheet, sizeof sheet, &len) != DONE)
        return TROUBLE;
    if (len > URP_SHEET_MAX)
        return trouble(sheet_path, "longer than the sheet of any tag");
    return write_sheet(tag_path, locks_path, sheet, len);
}

/* Keeps the old element in a file beside the tag, as its number and hex. */
static int save_old(const char *tag_path, const struct element *old)
{
    char name[FILENAME_MAX], line[16 + 2 * URP_OLD_MAX];
    size_t i, n;

    if (beside(tag_path, ".old", name) != DONE)
        return TROUBLE;
    n = (size_t)sprintf(line, "%lu ", (unsigned long)old->number);
    for (i = 0; i < old->len; i++)
        n += (size_t)sprintf(line + n, "%02X", (unsigned)old->bytes[i]);
    if (old->len == 0)
        line[n++] = '-';
    line[n++] = '\n';
    return save(name, (const uint8_t *)line, n);
}

/* Saves the old element and then the tag: if the second fails, an undo sets
   what is there and so changes nothing. */
static int save_edit(const char *tag_path, const struct tag *tag,
                     const struct element *old)
{
    char name[FILENAME_MAX];

    if (prepare(tag_path, tag->bytes, tag->len, name) != DONE)
        return TROUBLE;
    if (save_old(tag_path, old) != DONE) {
        remove(name);
        return TROUBLE;
    }
    return replace(tag_path, name);
}

static int set_element(const char *tag_path, const char *locks_path,
                       const struct element *e)
{
    struct tag tag;
    struct element old;
    size_t pages, place;
    uint32_t answer;

    if (load_tag(tag_path, locks_path, &tag) != DONE)
        return TROUBLE;
    answer = urp_edit(tag.bytes, tag.len, tag.locks, tag.locks_len, e->number,
                      e->bytes, e->len, old.bytes, sizeof old.bytes,
                      &pages, &old.len, &place);
    if (answer != URP_DONE)
        return refused_at(answer, &place);
    old.number = e->number;
    if (pages > 0 && save_edit(tag_path, &tag, &old) != DONE)
        return TROUBLE;
    printf("pages changed %lu\nold element ", (unsigned long)pages);
    show_element(old.number, old.bytes, old.len);
    return DONE;
}

static int edit(const char *tag_path, const char *locks_path,
                const char *number, const char *value)
{
    struct element e;

    if (!take_number(number, &e.number))
        return trouble(number, "not an element number");
    if (!take_value(value, &e))
        return trouble(value, "not 1 to 256 bytes, in hex or as text behind =,"
                       " nor - for none");
    return set_element(tag_path, locks_path, &e);
}

/* Hands back the old element of the last edit that changed the tag. A second
   undo takes the first one back. */
static int undo(const char *tag_path, const char *locks_path)
{
    char name[FILENAME_MAX], line[16 + 2 * URP_OLD_MAX + 1];
    char *blank, *end;
    size_t len;
    struct element e;

    if (beside(tag_path, ".old", name) != DONE
        || load(name, (uint8_t *)line, sizeof line - 1, &len) != DONE)
        return TROUBLE;
    line[len] = '\0';
    blank = strchr(line, ' ');
    end = strchr(line, '\n');
    if (blank == NULL || end == NULL || end < blank)
        return trouble(name, "not what an edit leaves");
    *blank = '\0';
    *end = '\0';
    if (!take_number(line, &e.number) || !take_hex(blank + 1, &e))
        return trouble(name, "not what an edit leaves");
    return set_element(tag_path, locks_path, &e);
}

/* ---- the identifier of a UHF tag ---- */

/* The elements of an identifier, and the usage that a sheet needs beside them,
   in the order of their numbers. */
enum { ITEM, ISIL, SET, USAGE, ELEMENTS };

static int make_words(const char *text)
{
    uint16_t words[WORDS_MAX];
    size_t used;
    uint32_t answer;

    if (strlen(text) > WORDS_MAX)
        return trouble("text", "more than 512 characters");
    answer = urp_text_to_words((const uint8_t *)text, strlen(text),
                               words, WORDS_MAX, &used);
    if (answer != URP_DONE)
        return refused(answer);
    show_words(words, used);
    return DONE;
}

/* Reads words given as four hex digits each. */
static int read_words(int count, char **hex, struct text *text)
{
    uint16_t words[WORDS_MAX];
    uint32_t answer;

    if (take_words(count, hex, words) != DONE)
        return TROUBLE;
    answer = urp_words_to_text(words, (size_t)count, text->bytes,
                               sizeof text->bytes, &text->len);
    return answer == URP_DONE ? DONE : refused(answer);
}

static int show_words_text(int count, char **hex)
{
    struct text text;
    int status = read_words(count, hex, &text);

    if (status == DONE)
        show_text(text.bytes, text.len);
    return status;
}

/* Takes an identifier apart into elements 1, 3 and 4. */
static int take_apart(const uint8_t *text, size_t len, uint32_t isil_leads,
                      struct element *elements)
{
    struct element *item = &elements[ITEM], *isil = &elements[ISIL];
    struct element *set = &elements[SET];
    uint32_t answer = urp_take_apart(text, len, isil_leads,
                                     item->bytes, sizeof item->bytes,
                                     isil->bytes, sizeof isil->bytes,
                                     set->bytes, sizeof set->bytes,
                                     &item->len, &isil->len, &set->len);

    item->number = URP_ELEMENT_PRIMARY_ITEM;
    isil->number = URP_ELEMENT_OWNER;
    set->number = URP_ELEMENT_SET;
    return answer == URP_DONE ? DONE : refused(answer);
}

static int apart(const char *lead, const char *text)
{
    struct element elements[ELEMENTS];
    uint32_t isil_leads;
    int i;

    if (take_lead(lead, &isil_leads) != DONE)
        return TROUBLE;
    if (take_apart((const uint8_t *)text, strlen(text), isil_leads, elements)
        != DONE)
        return REFUSED;
    for (i = ITEM; i <= SET; i++)
        show_element(elements[i].number, elements[i].bytes, elements[i].len);
    return DONE;
}

/* Puts elements 1, 3 and 4 together and shows the identifier. */
static int put_together(const struct element *elements)
{
    const struct element *item = &elements[ITEM], *isil = &elements[ISIL];
    const struct element *set = &elements[SET];
    uint8_t text[URP_IDENTIFIER_MAX];
    size_t used;
    uint32_t answer = urp_put_together(item->bytes, item->len,
                                       isil->bytes, isil->len,
                                       set->bytes, set->len,
                                       text, sizeof text, &used);

    if (answer != URP_DONE)
        return refused(answer);
    show_text(text, used);
    return DONE;
}

/* Each element as a clerk types it; ISIL "-" is none. */
static int together(const char *item, const char *isil, const char *total,
                    const char *ordinal)
{
    struct element elements[ELEMENTS];

    if (!take_text(item, &elements[ITEM])
        || !take_text(strcmp(isil, "-") == 0 ? "" : isil, &elements[ISIL]))
        return trouble("ITEM or ISIL", "more than 256 bytes");
    if (!take_set(total, ordinal, &elements[SET]))
        return trouble("TOTAL or ORDINAL", "not a number of up to 65535");
    return put_together(elements);
}

/* Makes a sheet of elements, without the empty ones, and gives its length. */
static size_t make_sheet(const struct element *elements, uint8_t *sheet)
{
    size_t entries = 0, at, i;
    uint8_t *entry = sheet + 2;

    for (i = 0; i < ELEMENTS; i++)
        entries += elements[i].len > 0;
    put_low_first(sheet, entries);
    at = 2 + 4 * entries;
    for (i = 0; i < ELEMENTS; i++) {
        const struct element *e = &elements[i];

        if (e->len == 0)
            continue;
        entry[0] = (uint8_t)e->number;
        put_low_first(entry + 1, at);
        entry[3] = (uint8_t)e->len;
        memcpy(sheet + at, e->bytes, e->len);
        entry += 4;
        at += e->len;
    }
    return at;
}

/* Lays out on a tag what the words of a UHF tag say, and a usage, which they do
   not. */
static int copy(const char *tag_path, const char *locks_path,
                const char *usage, const char *lead, int count, char **hex)
{
    struct element elements[ELEMENTS];
    struct text text;
    uint8_t sheet[URP_SHEET_MAX];
    uint32_t isil_leads;
    int status;

    if (take_usage(usage, &elements[USAGE]) != DONE
        || take_lead(lead, &isil_leads) != DONE)
        return TROUBLE;
    status = read_words(count, hex, &text);
    if (status == DONE)
        status = take_apart(text.bytes, text.len, isil_leads, elements);
    if (status == DONE)
        status = write_sheet(tag_path, locks_path, sheet,
                             make_sheet(elements, sheet));
    if (status == DONE)
        show_sheet(sheet);
    return status;
}

/* ---- the demonstration ---- */

static const uint8_t whole_sheet[] = {
    3, 0,                                           /* three entries */
    1, 14, 0, 2,  4, 16, 0, 4,  5, 20, 0, 1,        /* 1, 4 and 5 */
    0x42, 0x31,  0x01, 0x00, 0x01, 0x00,  0x10      /* B1; 1 of 1; usage 1.0 */
};

/* Writes a sheet on a blank tag and shows the pages to send. */
static int demo_write(struct tag *tag, const uint8_t *sheet, size_t len)
{
    struct tag blank;
    size_t pages;
    uint32_t answer;

    memset(tag, 0, sizeof *tag);
    tag->len = 36;
    tag->locks_len = tag->len / URP_PAGE;
    blank = *tag;
    answer = urp_write(sheet, len, tag->bytes, tag->len, tag->locks,
                       tag->locks_len, &pages);
    if (answer != URP_DONE)
        return refused(answer);
    printf("write  on a blank tag of 36 bytes: pages changed %lu\n",
           (unsigned long)pages);
    show_changed(blank.bytes, tag->bytes, tag->len);
    return DONE;
}

/* Reads the sheet that was written. */
static int demo_read(const struct tag *tag, const uint8_t *written, size_t len)
{
    uint8_t sheet[URP_SHEET_MAX];
    size_t used;

    if (read_tag(tag, sheet, &used) != DONE)
        return REFUSED;
    if (used != len || memcmp(sheet, written, used) != 0)
        return trouble("demo", "another sheet was read than written");
    printf("read   the sheet that was written, %lu bytes: ",
           (unsigned long)used);
    show_sheet(sheet);
    return DONE;
}

/* Sets an element and shows what the call gave. */
static int demo_edit(struct tag *tag, const struct element *e,
                     struct element *old, size_t *pages)
{
    struct tag before = *tag;
    size_t place;
    uint32_t answer = urp_edit(tag->bytes, tag->len, tag->locks,
                               tag->locks_len, e->number, e->bytes, e->len,
                               old->bytes, sizeof old->bytes,
                               pages, &old->len, &place);

    if (answer != URP_DONE)
        return refused_at(answer, &place);
    old->number = e->number;
    printf("edit   %lu ", (unsigned long)e->number);
    put_hex(stdout, e->bytes, e->len);
    printf(": pages changed %lu, old element ", (unsigned long)*pages);
    put_hex(stdout, old->bytes, old->len);
    fputs("\n", stdout);
    show_changed(before.bytes, tag->bytes, tag->len);
    return DONE;
}

/* Two edits, then their old elements back, newest first. */
static int demo_edits(struct tag *tag, const struct tag *start)
{
    struct element first, second, old1, old2, last;
    struct tag between;
    size_t pages1, pages2, back1, back2;

    first.number = second.number = URP_ELEMENT_OWNER;
    first.len = 9;
    memcpy(first.bytes, "DK-718500", 9);
    second.len = 9;
    memcpy(second.bytes, "US-InU-Mu", 9);

    if (demo_edit(tag, &first, &old1, &pages1) != DONE)
        return REFUSED;
    between = *tag;
    if (demo_edit(tag, &second, &old2, &pages2) != DONE
        || demo_edit(tag, &old2, &last, &back2) != DONE)
        return REFUSED;
    if (memcmp(tag->bytes, between.bytes, tag->len) != 0 || back2 != pages2)
        return trouble("demo", "the second edit was not undone");
    if (demo_edit(tag, &old1, &last, &back1) != DONE)
        return REFUSED;
    if (memcmp(tag->bytes, start->bytes, tag->len) != 0 || back1 != pages1)
        return trouble("demo", "the first edit was not undone");
    puts("the bytes are again those that were written, and each undo\n"
         "changed as many pages as its edit");
    return DONE;
}

/* An identifier with an accent, set, listed and set back. To C it is bytes as
   any other: strlen and memcpy count as the library does. */
static int demo_accent(struct tag *tag, const struct tag *start)
{
    static const char name[] = "K\303\270benhavn";
    struct element e, old, last;
    size_t pages;

    e.number = URP_ELEMENT_PRIMARY_ITEM;
    e.len = strlen(name);
    memcpy(e.bytes, name, e.len);
    if (demo_edit(tag, &e, &old, &pages) != DONE)
        return REFUSED;
    fputs("read   the letters as they are: ", stdout);
    if (show_tag(tag) != DONE
        || demo_edit(tag, &old, &last, &pages) != DONE)
        return REFUSED;
    if (memcmp(tag->bytes, start->bytes, tag->len) != 0)
        return trouble("demo", "the identifier was not set back");
    return DONE;
}

/* The words of an identifier, and the identifier back. */
static int demo_words(const char *text, struct text *back)
{
    uint16_t words[WORDS_MAX];
    size_t count;
    uint32_t answer = urp_text_to_words((const uint8_t *)text, strlen(text),
                                        words, WORDS_MAX, &count);

    if (answer != URP_DONE)
        return refused(answer);
    printf("words  %s on a UHF tag: ", text);
    show_words(words, count);
    answer = urp_words_to_text(words, count, back->bytes, sizeof back->bytes,
                               &back->len);
    if (answer != URP_DONE)
        return refused(answer);
    if (back->len != strlen(text) || memcmp(back->bytes, text, back->len) != 0)
        return trouble("demo", "another text was read than written");
    printf("text   of these words: ");
    show_text(back->bytes, back->len);
    return DONE;
}

/* An identifier that an ISIL leads, from the words of a UHF tag to an HF tag,
   with a usage beside it, and put together again. */
static int demo_copy(void)
{
    struct element elements[ELEMENTS];
    struct tag tag;
    struct text text;
    uint8_t sheet[URP_SHEET_MAX];
    size_t len;

    if (demo_words("CH-000134-1.12345678.31", &text) != DONE
        || take_apart(text.bytes, text.len, 1, elements) != DONE
        || take_usage("10", &elements[USAGE]) != DONE)
        return REFUSED;
    len = make_sheet(elements, sheet);
    if (demo_write(&tag, sheet, len) != DONE
        || demo_read(&tag, sheet, len) != DONE)
        return REFUSED;
    printf("text   of 3, 1 and 4 put together: ");
    return put_together(elements);
}

static int demo(void)
{
    struct tag tag, start;
    int status = demo_write(&tag, whole_sheet, sizeof whole_sheet);

    if (status == DONE)
        status = demo_read(&tag, whole_sheet, sizeof whole_sheet);
    start = tag;
    if (status == DONE)
        status = demo_edits(&tag, &start);
    if (status == DONE)
        status = demo_accent(&tag, &start);
    return status == DONE ? demo_copy() : status;
}

static int usage(void)
{
    fputs("usage: desk list TAG | write TAG LOCKS SHEET"
          " | edit TAG LOCKS NUMBER HEX|=TEXT | undo TAG LOCKS"
          " | words TEXT | text WORD.. | apart isil|item TEXT"
          " | together ITEM ISIL TOTAL ORDINAL"
          " | copy TAG LOCKS USAGE isil|item WORD.. | demo"
          "  (LOCKS - for all open, HEX - to remove, ISIL - for none)\n",
          stderr);
    return TROUBLE;
}

static int run(int words, char **word)
{
    if (words == 2 && strcmp(word[0], "list") == 0)
        return list(word[1]);
    if (words == 4 && strcmp(word[0], "write") == 0)
        return write_file(word[1], word[2], word[3]);
    if (words == 5 && strcmp(word[0], "edit") == 0)
        return edit(word[1], word[2], word[3], word[4]);
    if (words == 3 && strcmp(word[0], "undo") == 0)
        return undo(word[1], word[2]);
    if (words == 2 && strcmp(word[0], "words") == 0)
        return make_words(word[1]);
    if (words >= 2 && strcmp(word[0], "text") == 0)
        return show_words_text(words - 1, word + 1);
    if (words == 3 && strcmp(word[0], "apart") == 0)
        return apart(word[1], word[2]);
    if (words == 5 && strcmp(word[0], "together") == 0)
        return together(word[1], word[2], word[3], word[4]);
    if (words >= 6 && strcmp(word[0], "copy") == 0)
        return copy(word[1], word[2], word[3], word[4], words - 5, word + 5);
    if (words == 1 && strcmp(word[0], "demo") == 0)
        return demo();
    return usage();
}

int main(int argc, char **argv)
{
    int status = run(argc - 1, argv + 1);

    if (fflush(stdout) != 0 || ferror(stdout))
        return trouble("standard output", "cannot be written");
    return status;
}

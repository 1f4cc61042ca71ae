/* desk_io.h: what desk.c shows, the files that it keeps, and what is typed. No
   function here calls the library. */
#ifndef DESK_IO_H
#define DESK_IO_H

#include "urpanella.h"
#include "urpanella_text.h"

#include <stdio.h>
#include <stdlib.h>
#include <string.h>

enum { DONE, REFUSED, TROUBLE };

/* A tag and its lock map as files hold them. One byte more than is permitted
   shows the library that a file is too long. */
struct tag {
    uint8_t bytes[URP_TAG_MAX + 1];
    size_t len;
    uint8_t locks[URP_LOCKS_MAX + 1];
    size_t locks_len;
};

/* Room for this many words of a UHF tag, or characters, at once. */
enum { WORDS_MAX = 512 };

/* An element in sheet form; len 0 is none. */
struct element {
    uint32_t number;
    uint8_t bytes[URP_OLD_MAX + 1];
    size_t len;
};

/* The text of a UHF tag's identifier. */
struct text {
    uint8_t bytes[3 * WORDS_MAX];
    size_t len;
};

/* ---- what is shown ---- */

static int trouble(const char *about, const char *what)
{
    fprintf(stderr, "desk: %s: %s\n", about, what);
    return TROUBLE;
}

static int refused(uint32_t answer)
{
    fprintf(stderr, "refused %lu: %s\n", (unsigned long)answer,
            urp_refusal_text(answer));
    return REFUSED;
}

/* A refusal by a call that gives the place of damage, which is looked at only
   where the answer comes with one. */
static int refused_at(uint32_t answer, const size_t *place)
{
    if (!URP_HAS_PLACE(answer))
        return refused(answer);
    fprintf(stderr, "refused %lu at byte %lu: %s\n", (unsigned long)answer,
            (unsigned long)*place, urp_refusal_text(answer));
    return REFUSED;
}

static void put_hex(FILE *out, const uint8_t *bytes, size_t len)
{
    size_t i;

    if (len == 0)
        fputs("-", out);
    for (i = 0; i < len; i++)
        fprintf(out, "%02X", (unsigned)bytes[i]);
}

/* How many bytes at the beginning of a text a terminal would obey and not show:
   a control character of one byte or of two, C2 80 to C2 9F. A backslash counts
   too: it stands before the hex digits of the others. */
static size_t hidden_at(const uint8_t *text, size_t len)
{
    if (text[0] < 0x20 || text[0] == 0x7F || text[0] == '\\')
        return 1;
    return len > 1 && text[0] == 0xC2 && text[1] < 0xA0 ? 2 : 0;
}

/* Shows a text as it is, but each hidden byte as a backslash and two hex
   digits. */
static void show_text(const uint8_t *text, size_t len)
{
    size_t i, hidden = 0;

    for (i = 0; i < len; i++) {
        if (hidden == 0)
            hidden = hidden_at(text + i, len - i);
        if (hidden == 0) {
            printf("%c", text[i]);
        } else {
            printf("\\%02X", (unsigned)text[i]);
            hidden--;
        }
    }
    printf("\n");
}

/* How many bytes at the end of an element are text. */
static size_t text_of(uint32_t number, size_t len)
{
    switch (number) {
    case URP_ELEMENT_PRIMARY_ITEM:
    case URP_ELEMENT_OWNER:
    case URP_ELEMENT_ALTERNATIVE_ITEM: return len;
    case URP_ELEMENT_ALTERNATIVE_OWNER: return len > 0 ? len - 1 : 0;
    default: return 0;
    }
}

static void show_element(uint32_t number, const uint8_t *bytes, size_t len)
{
    size_t text = text_of(number, len);

    printf("%lu ", (unsigned long)number);
    put_hex(stdout, bytes, len);
    printf("  (%s)%s", urp_element_name(number), text > 0 ? " " : "");
    show_text(bytes + len - text, text);
}

/* Shows a sheet that the library gave or took. */
static void show_sheet(const uint8_t *sheet)
{
    size_t count = sheet[0] + 256 * (size_t)sheet[1], i;

    printf("elements %lu\n", (unsigned long)count);
    for (i = 0; i < count; i++) {
        const uint8_t *entry = sheet + 2 + 4 * i;
        size_t offset = entry[1] + 256 * (size_t)entry[2];

        show_element(entry[0], sheet + offset, entry[3]);
    }
}

/* Shows the pages whose bytes are others than before: those that a host sends
   to the chip. */
static void show_changed(const uint8_t *before, const uint8_t *tag, size_t len)
{
    size_t at;

    for (at = 0; at < len; at += URP_PAGE)
        if (memcmp(before + at, tag + at, URP_PAGE) != 0)
            printf("  page %3lu  %02X %02X %02X %02X\n",
                   (unsigned long)(at / URP_PAGE), (unsigned)tag[at],
                   (unsigned)tag[at + 1], (unsigned)tag[at + 2],
                   (unsigned)tag[at + 3]);
}

static void show_words(const uint16_t *words, size_t len)
{
    size_t i;

    for (i = 0; i < len; i++)
        printf("%s%04X", i == 0 ? "" : " ", (unsigned)words[i]);
    printf("\n");
}

/* ---- files ---- */

/* Reads at most room bytes of a file. */
static int load(const char *path, uint8_t *bytes, size_t room, size_t *len)
{
    FILE *file = fopen(path, "rb");
    int failed;

    if (file == NULL)
        return trouble(path, "cannot be opened");
    *len = fread(bytes, 1, room, file);
    failed = ferror(file);
    fclose(file);
    return failed ? trouble(path, "cannot be read") : DONE;
}

/* Makes a name beside path by a suffix. */
static int beside(const char *path, const char *suffix, char *name)
{
    if (strlen(path) + strlen(suffix) >= FILENAME_MAX)
        return trouble(path, "the name is too long");
    strcpy(name, path);
    strcat(name, suffix);
    return DONE;
}

static int fill(const char *path, const uint8_t *bytes, size_t len)
{
    FILE *file = fopen(path, "wb");
    size_t written;

    if (file == NULL)
        return trouble(path, "cannot be made");
    written = fwrite(bytes, 1, len, file);
    if (fclose(file) == 0 && written == len)
        return DONE;
    remove(path);
    return trouble(path, "cannot be written");
}

/* Puts the bytes into a new file beside path and gives its name. */
static int prepare(const char *path, const uint8_t *bytes, size_t len,
                   char *name)
{
    FILE *file;

    if (beside(path, ".new", name) != DONE)
        return TROUBLE;
    file = fopen(name, "rb");
    if (file != NULL) {
        fclose(file);
        return trouble(name, "is in the way; look at it and remove it");
    }
    return fill(name, bytes, len);
}

/* Gives the prepared file the name of the one that it replaces. */
static int replace(const char *path, const char *name)
{
    if (rename(name, path) == 0)
        return DONE;
    remove(name);
    return trouble(path, "cannot be replaced");
}

/* Replaces a file whole or not at all. */
static int save(const char *path, const uint8_t *bytes, size_t len)
{
    char name[FILENAME_MAX];

    if (prepare(path, bytes, len, name) != DONE)
        return TROUBLE;
    return replace(path, name);
}

/* Reads a tag and its lock map; "-" for the lock map means that every page is
   open. */
static int load_tag(const char *tag_path, const char *locks_path,
                    struct tag *tag)
{
    if (load(tag_path, tag->bytes, sizeof tag->bytes, &tag->len) != DONE)
        return TROUBLE;
    if (strcmp(locks_path, "-") != 0)
        return load(locks_path, tag->locks, sizeof tag->locks,
                    &tag->locks_len);
    tag->locks_len = tag->len / URP_PAGE;
    memset(tag->locks, 0, tag->locks_len);
    return DONE;
}

/* ---- what is typed ---- */

static int digit(char c)
{
    static const char digits[] = "0123456789ABCDEFabcdef";
    const char *at = c == '\0' ? NULL : strchr(digits, c);

    if (at == NULL)
        return -1;
    return (int)(at - digits) - (at - digits > 15 ? 6 : 0);
}

/* Takes hex digits, or "-" for no bytes; false if it is neither. */
static int take_hex(const char *hex, struct element *e)
{
    size_t i, digits = strlen(hex);

    e->len = 0;
    if (strcmp(hex, "-") == 0)
        return 1;
    if (digits == 0 || digits % 2 != 0 || digits / 2 > sizeof e->bytes)
        return 0;
    for (i = 0; i < digits; i += 2) {
        int high = digit(hex[i]), low = digit(hex[i + 1]);

        if (high < 0 || low < 0)
            return 0;
        e->bytes[i / 2] = (uint8_t)(16 * high + low);
    }
    e->len = digits / 2;
    return 1;
}

/* Takes a text as the bytes that it is; false if they are too many. */
static int take_text(const char *text, struct element *e)
{
    e->len = strlen(text);
    if (e->len > sizeof e->bytes)
        return 0;
    memcpy(e->bytes, text, e->len);
    return 1;
}

/* Takes a text behind a "=", which is not empty; else as take_hex. */
static int take_value(const char *word, struct element *e)
{
    if (word[0] != '=')
        return take_hex(word, e);
    return word[1] != '\0' && take_text(word + 1, e);
}

/* Takes four hex digits; false if it is anything else. */
static int take_word(const char *hex, uint16_t *word)
{
    unsigned number = 0;
    size_t i;

    if (strlen(hex) != 4)
        return 0;
    for (i = 0; i < 4; i++) {
        if (digit(hex[i]) < 0)
            return 0;
        number = 16 * number + (unsigned)digit(hex[i]);
    }
    *word = (uint16_t)number;
    return 1;
}

/* Takes words of four hex digits each. */
static int take_words(int count, char **hex, uint16_t *words)
{
    int i;

    if (count > WORDS_MAX)
        return trouble("words", "more than 512");
    for (i = 0; i < count; i++)
        if (!take_word(hex[i], &words[i]))
            return trouble(hex[i], "not a word of four hex digits");
    return DONE;
}

/* Takes a decimal number of 32 bits; false if it is none. */
static int take_number(const char *word, uint32_t *number)
{
    size_t digits = strlen(word);
    unsigned long taken = strtoul(word, NULL, 10);

    if (digits == 0 || digits > 10 || strspn(word, "0123456789") != digits
        || taken > 0xFFFFFFFFUL)
        return 0;
    *number = (uint32_t)taken;
    return 1;
}

static void put_low_first(uint8_t *two, size_t number)
{
    two[0] = (uint8_t)(number % 256);
    two[1] = (uint8_t)(number / 256);
}

/* Takes two decimal numbers of 16 bits; false if they are none. */
static int take_set(const char *total, const char *ordinal, struct element *e)
{
    uint32_t numbers[2];

    if (!take_number(total, &numbers[0]) || !take_number(ordinal, &numbers[1])
        || numbers[0] > 0xFFFF || numbers[1] > 0xFFFF)
        return 0;
    put_low_first(e->bytes, numbers[0]);
    put_low_first(e->bytes + 2, numbers[1]);
    e->len = 4;
    return 1;
}

/* Takes two hex digits as element 5. */
static int take_usage(const char *hex, struct element *e)
{
    e->number = URP_ELEMENT_USAGE;
    if (take_hex(hex, e) && e->len == 1)
        return DONE;
    return trouble(hex, "not a usage of two hex digits");
}

/* Takes what leads an identifier, "isil" or "item". */
static int take_lead(const char *word, uint32_t *isil_leads)
{
    *isil_leads = strcmp(word, "isil") == 0;
    if (*isil_leads || strcmp(word, "item") == 0)
        return DONE;
    return trouble(word, "neither isil nor item");
}

#endif

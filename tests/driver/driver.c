/* Runs a library with the interface of urpanella.h on cases from standard input.

   A case: the call (1 read, 2 write, 3 edit, 4 words to text, 5 text to words, 6 take apart, 7 put together), a byte of
   flags (bit k below 4: buffer k, where it has no bytes, is passed as a null pointer; bit 7: the side of the guard page),
   the element number, or whether an ISIL leads (4 bytes), the length of each buffer in bytes (4 bytes each), the bytes of
   each buffer. Buffers come in the order of the call's parameters. Words are two bytes each, low byte first, which is how
   the machines here hold them.

   An outcome: the answer (4 bytes), then each result and each buffer as it is afterwards, after the canary bytes that
   stand beside it. Results (used, pages, old_used, place; item_used, isil_used, set_used) come in the order of the call's
   parameters too. Numbers are low byte first. A result is preset, so that one left alone is seen.

   A sweep: a case of reading, writing or editing with 64 added to the call, and behind the bytes of its buffers a place
   (4 bytes). There, in the buffer that is judged (the tag, the sheet, the new bytes), two bytes run through all 65,536
   values, the first byte slower. The tag's checks are put right each time. Its outcome: the answer of each call in a byte;
   255 where a refusal has changed anything.

   Every buffer and every result ends where a page begins that nobody may touch, or with bit 7 begins where such a page
   ends, so a step too far stops the driver. Canary bytes are on the other side. A call that does not return is stopped
   by the clock.

   Build: cc -I include tests/driver/driver.c LIBRARY -o driver
   Where a compiler has no headers at all: add -DURP_NO_LIBC_HEADERS and -I examples/libc. */

#ifdef URP_NO_LIBC_HEADERS
#include <stddef.h>
#define PROT_NONE 0
#define PROT_READ 1
#define PROT_WRITE 2
#define MAP_PRIVATE 2
#define MAP_ANONYMOUS 0x20
#define MAP_FAILED ((void *)-1)
extern void *mmap(void *, size_t, int, int, int, long);
extern int mprotect(void *, size_t, int);
extern long read(int, void *, size_t);
extern long write(int, const void *, size_t);
extern void _exit(int);
extern unsigned alarm(unsigned);
extern void *memcpy(void *, const void *, size_t);
extern int memcmp(const void *, const void *, size_t);
#else
#define _DEFAULT_SOURCE
#include <string.h>
#include <sys/mman.h>
#include <unistd.h>
#endif

#include "urpanella.h"

enum { READ = 1, WRITE = 2, EDIT = 3, TO_TEXT = 4, TO_WORDS = 5, APART = 6, TOGETHER = 7 };
enum { MOST_BUFFERS = 4, MOST_RESULTS = 3, PLACES = MOST_BUFFERS + MOST_RESULTS };
enum { CANARY = 32, PRESET = 0xA5 };
enum { BEHIND_GUARD = 0x80 };
enum { SWEEP = 64, CHANGED = 255 };

/* What one call may take. Under an emulator it takes milliseconds. */
#ifndef URP_SECONDS
#define URP_SECONDS 20
#endif

/* Multiples of every page size in use. */
#define ROOM ((size_t)1 << 20)
#define GUARD ((size_t)1 << 16)

static uint8_t *start_of[PLACES], *end_of[PLACES];

/* What each call of a sweep is lent, and the most that fits. */
enum { LENT = 4096 };
static uint8_t lent[MOST_BUFFERS][LENT];

static uint8_t input[1 << 16];
static size_t input_used, input_length;
static uint8_t output[1 << 16];
static size_t output_length;

static void stop(const char *line)
{
    size_t length = 0;
    while (line[length] != 0)
        length++;
    if (write(2, line, length) < 0)
        _exit(3);
    _exit(2);
}

static void flush(void)
{
    size_t done = 0;
    while (done < output_length) {
        long count = write(1, output + done, output_length - done);
        if (count <= 0)
            stop("driver: standard output is closed\n");
        done += (size_t)count;
    }
    output_length = 0;
}

static void give(const uint8_t *bytes, size_t length)
{
    while (length > 0) {
        size_t part = sizeof output - output_length;
        if (part > length)
            part = length;
        memcpy(output + output_length, bytes, part);
        output_length += part;
        bytes += part;
        length -= part;
        if (output_length == sizeof output)
            flush();
    }
}

/* 1 when there is a byte to take, 0 at the end of the input. */
static int filled(void)
{
    long count;
    if (input_used < input_length)
        return 1;
    alarm(0); /* whoever makes the cases may take long */
    count = read(0, input, sizeof input);
    if (count < 0)
        stop("driver: standard input cannot be read\n");
    input_used = 0;
    input_length = (size_t)count;
    return count > 0;
}

static void take(uint8_t *bytes, size_t length)
{
    while (length > 0) {
        size_t part;
        if (!filled())
            stop("driver: the input ends inside a case\n");
        part = input_length - input_used;
        if (part > length)
            part = length;
        memcpy(bytes, input + input_used, part);
        input_used += part;
        bytes += part;
        length -= part;
    }
}

static uint32_t take_number(void)
{
    uint8_t b[4];
    take(b, 4);
    return (uint32_t)b[0] | (uint32_t)b[1] << 8 | (uint32_t)b[2] << 16 | (uint32_t)b[3] << 24;
}

static void open_rooms(void)
{
    int place;
    for (place = 0; place < PLACES; place++) {
        uint8_t *all = mmap(NULL, GUARD + ROOM + GUARD, PROT_NONE, MAP_PRIVATE | MAP_ANONYMOUS, -1, 0);
        if ((void *)all == MAP_FAILED || mprotect(all + GUARD, ROOM, PROT_READ | PROT_WRITE) != 0)
            stop("driver: no memory for the buffers\n");
        start_of[place] = all + GUARD;
        end_of[place] = all + GUARD + ROOM;
    }
}

/* Where the canary bytes of so many bytes stand. */
static uint8_t *beside(uint8_t *start, size_t length, uint8_t flags)
{
    return flags & BEHIND_GUARD ? start + length : start - CANARY;
}

static uint8_t canary_byte(int place)
{
    return (uint8_t)(0xC3 ^ (CANARY - place));
}

/* The start of so many bytes at the guard, with fresh canary bytes beside them. */
static uint8_t *placed(int place, size_t length, uint8_t flags)
{
    uint8_t *start = flags & BEHIND_GUARD ? start_of[place] : end_of[place] - length;
    uint8_t *canary = beside(start, length, flags);
    int i;
    for (i = 0; i < CANARY; i++)
        canary[i] = canary_byte(i);
    return start;
}

/* What a result holds before a call: the byte PRESET throughout. */
static const size_t preset = (size_t)-1 / 255 * PRESET;

static size_t *placed_result(int place, uint8_t flags)
{
    size_t *result = (size_t *)(void *)placed(place, sizeof(size_t), flags);
    *result = preset;
    return result;
}

/* What each call has: buffers, results, and the buffer that is of words, if there is one. */
static const struct {
    int buffers, results, of_words;
} calls[] = {{0, 0, -1}, {2, 2, -1}, {3, 1, -1}, {4, 3, -1}, {2, 1, 0}, {2, 1, 1}, {4, 3, -1}, {4, 1, -1}};

struct work {
    uint8_t call;
    int is_sweep;
    uint8_t flags;
    uint32_t number;
    int buffers;
    int results;
    size_t length[MOST_BUFFERS];
    uint8_t *start[MOST_BUFFERS];
    uint8_t *passed[MOST_BUFFERS];
    size_t *result[MOST_RESULTS];
};

static void take_work(struct work *w)
{
    int i;
    take(&w->call, 1);
    take(&w->flags, 1);
    w->number = take_number();
    w->is_sweep = (w->call & SWEEP) != 0;
    w->call &= ~SWEEP;
    if (w->call < READ || w->call > (w->is_sweep ? EDIT : TOGETHER))
        stop("driver: a call that does not exist\n");
    w->buffers = calls[w->call].buffers;
    w->results = calls[w->call].results;
    for (i = 0; i < w->buffers; i++) {
        w->length[i] = take_number();
        if (w->length[i] > (w->is_sweep ? LENT : ROOM - CANARY))
            stop("driver: a buffer too long\n");
        if (i == calls[w->call].of_words && w->length[i] % 2 != 0)
            stop("driver: half a word\n");
    }
    for (i = 0; i < w->buffers; i++) {
        w->start[i] = placed(i, w->length[i], w->flags);
        take(w->start[i], w->length[i]);
        w->passed[i] = w->length[i] == 0 && (w->flags >> i & 1) != 0 ? NULL : w->start[i];
    }
    for (i = 0; i < w->results; i++)
        w->result[i] = placed_result(MOST_BUFFERS + i, w->flags);
}

static uint32_t run(const struct work *w)
{
    uint8_t *const *b = w->passed;
    const size_t *n = w->length;
    size_t *const *r = w->result;
    switch (w->call) {
    case READ:
        return urp_read(b[0], n[0], b[1], n[1], r[0], r[1]);
    case WRITE:
        return urp_write(b[0], n[0], b[1], n[1], b[2], n[2], r[0]);
    case TO_TEXT:
        return urp_words_to_text((const uint16_t *)(void *)b[0], n[0] / 2, b[1], n[1], r[0]);
    case TO_WORDS:
        return urp_text_to_words(b[0], n[0], (uint16_t *)(void *)b[1], n[1] / 2, r[0]);
    case APART:
        return urp_take_apart(b[0], n[0], w->number, b[1], n[1], b[2], n[2], b[3], n[3], r[0], r[1], r[2]);
    case TOGETHER:
        return urp_put_together(b[0], n[0], b[1], n[1], b[2], n[2], b[3], n[3], r[0]);
    default:
        return urp_edit(b[0], n[0], b[1], n[1], w->number, b[2], n[2], b[3], n[3], r[0], r[1], r[2]);
    }
}

/* Bytes that the call could have changed, after their canary. */
static void give_part(const struct work *w, uint8_t *start, size_t length)
{
    give(beside(start, length, w->flags), CANARY);
    give(start, length);
}

static void give_outcome(const struct work *w, uint32_t answer)
{
    uint8_t b[4];
    int i;
    for (i = 0; i < 4; i++)
        b[i] = (uint8_t)(answer >> 8 * i);
    give(b, 4);
    for (i = 0; i < w->results; i++)
        give_part(w, (uint8_t *)w->result[i], sizeof(size_t));
    for (i = 0; i < w->buffers; i++)
        give_part(w, w->start[i], w->length[i]);
}

/* A sweep gives no canary bytes back, so they are judged here. */
static void need_canary(const struct work *w, uint8_t *start, size_t length)
{
    const uint8_t *canary = beside(start, length, w->flags);
    int i;
    for (i = 0; i < CANARY; i++)
        if (canary[i] != canary_byte(i))
            stop("driver: bytes beside a buffer have changed\n");
}

/* Document 01: polynomial 1021, the high bit of each byte first. Worked out once, for the sake of the sweep's time. */
static uint16_t remainders[256];

static void work_out_remainders(void)
{
    unsigned byte, bit;
    for (byte = 0; byte < 256; byte++) {
        unsigned remainder = byte << 8;
        for (bit = 0; bit < 8; bit++)
            remainder = remainder << 1 ^ (remainder & 0x8000 ? 0x1021 : 0);
        remainders[byte] = (uint16_t)remainder;
    }
}

/* Document 01: starts at FFFF; bytes 0 to 18 and then 21 to 33, those that a short tag has not as 00; low byte first. */
static void put_crc(uint8_t *tag, size_t length)
{
    unsigned crc = 0xFFFF;
    size_t at;
    for (at = 0; at < 34; at++)
        if (at != 19 && at != 20)
            crc = (crc << 8 ^ remainders[crc >> 8 ^ (at < length ? tag[at] : 0)]) & 0xFFFF;
    tag[19] = (uint8_t)crc;
    tag[20] = (uint8_t)(crc >> 8);
}

/* Document 01: "a checksum at byte 3 such that the XOR of the whole block is 00". */
static void put_checksum(uint8_t *block)
{
    uint8_t sum = 0;
    size_t at;
    for (at = 0; at < block[0]; at++)
        sum ^= block[at];
    block[3] ^= sum;
}

/* Puts the check right that covers this byte of a tag, whose first block is structured. */
static void mend(uint8_t *tag, size_t length, size_t at)
{
    if (at < 34)
        put_crc(tag, length);
    else
        put_checksum(tag + 34);
}

static void lend(const struct work *w)
{
    int i;
    for (i = 0; i < w->buffers; i++)
        memcpy(w->start[i], lent[i], w->length[i]);
    for (i = 0; i < w->results; i++)
        *w->result[i] = preset;
}

static int is_as_lent(const struct work *w)
{
    int i;
    for (i = 0; i < w->buffers; i++)
        if (memcmp(w->start[i], lent[i], w->length[i]) != 0)
            return 0;
    for (i = 0; i < w->results; i++)
        if (*w->result[i] != preset)
            return 0;
    return 1;
}

/* One call of a sweep: its answer, as a byte. */
static uint8_t swept(const struct work *w)
{
    uint32_t answer;
    lend(w);
    answer = run(w);
    if (answer >= CHANGED || (answer != 0 && !is_as_lent(w)))
        return CHANGED;
    return (uint8_t)answer;
}

/* The calls with this byte at a place and any behind it. Their answers are given once all canary bytes have been seen. */
static void sweep_row(const struct work *w, uint8_t *judged, size_t at, uint8_t first)
{
    uint8_t answers[256];
    int second, i;
    alarm(URP_SECONDS);
    judged[at] = first;
    for (second = 0; second < 256; second++) {
        judged[at + 1] = (uint8_t)second;
        if (w->call == READ)
            mend(judged, w->length[0], at);
        answers[second] = swept(w);
    }
    for (i = 0; i < w->buffers; i++)
        need_canary(w, w->start[i], w->length[i]);
    for (i = 0; i < w->results; i++)
        need_canary(w, (uint8_t *)w->result[i], sizeof(size_t));
    give(answers, sizeof answers);
}

static void sweep(const struct work *w)
{
    int judged = w->call == EDIT ? 2 : 0, first, i;
    size_t at = take_number();
    if (at + 2 > w->length[judged])
        stop("driver: a sweep beyond its buffer\n");
    for (i = 0; i < w->buffers; i++)
        memcpy(lent[i], w->start[i], w->length[i]);
    for (first = 0; first < 256; first++)
        sweep_row(w, lent[judged], at, (uint8_t)first);
}

int main(void)
{
    struct work work;
    open_rooms();
    work_out_remainders();
    while (filled()) {
        take_work(&work);
        alarm(URP_SECONDS);
        if (work.is_sweep)
            sweep(&work);
        else
            give_outcome(&work, run(&work));
        flush(); /* so that the first case without an outcome is the one that stopped the driver */
    }
    return 0;
}

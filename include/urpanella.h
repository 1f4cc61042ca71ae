/* urpanella.h: RFID tags of libraries (ISO 28560-3, and the identifier of UHF
   tags after ISO/TS 28560-4), for hosts in C and C++.

   Three calls for tags: urp_read takes a tag apart into a sheet of elements,
   urp_write lays a sheet out on a tag, urp_edit changes one element on a tag.
   Four for the identifier of a UHF tag: urp_words_to_text reads its words into
   text, urp_text_to_words makes them of it; urp_take_apart takes the text apart
   into elements, urp_put_together makes it of them. Radio commands and the
   choice of pages to lock are the host's.

   TAG AND LOCK MAP
   A tag has 32 bytes, or a multiple of 4 from 36 to 2,048. A page is 4 bytes.
   The lock map has one byte for each page of the tag: 0 open, 1 locked.

   SHEET
       count of entries         2 bytes, low byte first
       then for each entry
         element number         1 byte
         offset of its bytes    2 bytes, low byte first, from the sheet's start
         length of its bytes    1 byte
       then the bytes of all entries, in entry order, with no gap; they end
       the sheet.
   Numbers rise strictly; 255 comes last and may repeat, in tag order.

   ELEMENTS (TEXT says what text is)
       1    primary item identifier: text
       3    owner (ISIL): 1 to 4 capitals, a hyphen, and 1 to 11 of
            A-Z a-z 0-9 / - :
       4    set information: parts, then ordinal, each 2 bytes, low byte first;
            both at most 255, the ordinal at most the parts
       5    usage: 1 byte, main qualifier in the high four bits, sub qualifier
            in the low four
       19   media format: 1 byte, not 00
       22   alternative item identifier: text
       23   alternative owner: 02 or 03, then text
       255  a carried block, byte for byte (BLOCKS says what it may be)
   1, 3, 22 and 23 are never empty, and 23 has text after its first byte. 4 and
   5 are always present. 3 and 23 clash. 22 clashes with a 1 of more than 16
   bytes.

   TEXT
   The text of 1, 22 and 23 is UTF-8, well formed as RFC 3629 defines it and
   without 00 to 1F and 7F hex. Every other character passes, also the control
   characters C2 80 to C2 9F. So C0 AF, ED A0 80, F4 90 80 80 and C3 with
   nothing behind it are no text. A host that has its words in another encoding
   turns them into UTF-8 first.
   Lengths and limits count bytes and not characters: an e with an acute accent
   is C3 A9, and eight of them are 16 bytes, the most that a 1 has on a tag of
   32 bytes or beside a 22. Each value, and on a tag each field, is judged by
   itself: a host that shortens a value cuts between two characters.
   Nothing is normalised. The same letter can also be spelled 65 CC 81, and the
   two spellings are two identifiers.
   The ISIL keeps its alphabet. The text of UHF words is another: one byte for
   each character, 00 to 7F hex.

   BLOCKS
   From byte 34 on a tag holds blocks, one behind the other, up to a byte 00 or
   the tag's end; a tag of 32 bytes has none. A byte 01 where one could begin is
   a filler, and is passed over. An element 255 is one block, of this form:
       length       1 byte, the whole block, itself included: 3 to 255
       ID           2 bytes, low byte first: 2 to 65,535
       checksum     1 byte, where the ID is at most 100: the XOR of all other
                    bytes of the block, so that the XOR of the whole block is
                    00. Such a block has at least 4 bytes.
       the rest     any bytes; they are not judged
   So 05 02 00 46 41 has the ID 2 and the byte 41, and 04 2C 01 41 the ID 300
   and the byte 41. The block with the ID 1 is the library's own: it holds what
   has no place in the first 34 bytes, and goes out as its elements.

   UHF WORDS
   The identifier of a UHF tag is text in URN Code 40: a row of words, which are
   numbers of sixteen bits. 39 characters have values, and pad stands for none:
       pad          0
       A to Z       1 to 26
       hyphen       27
       dot          28
       colon        29
       0 to 9       30 to 39
   Three values a, b, c make the word 1600a + 40b + c + 1. A word whose high
   byte is FC hex holds one character of ISO/IEC 646, 00 to 7F hex, in its low
   byte.
   Writing takes the characters from the front: three of the 39 make a word, and
   a character outside the 39, lower case among them, takes an FC word. One or
   two of the 39 left before such a character, or at the end, are padded on the
   right.
   Reading accepts one or two pads at the right of any word, and FC for any
   character from 00 to 7F hex, the 39 too. No other word has a meaning: not 0,
   not 1 (three pads), none with a pad before a character, and above FA00 hex
   none but FC00 to FC7F. What is written reads back; other words may read as
   the same text.
   So CH-000134-1.12345678.31 is, in hex, 141C C04F C70B ADB5 C6E2 DA1D ED4D
   D319, and DK-1/2.a is 1AD4 C1C1 FC2F CC61 FC61.
   Words are numbers and not pairs of bytes: 141C hex is 5148, in whichever
   order the bank has its two bytes. A host that gets bytes makes the numbers
   first.

   UHF IDENTIFIER
   The text of the identifier has parts, with a dot between two of them: an ISIL
   or none, the item identifier, and set information or none. They are elements
   3, 1 and 4. Every dot divides, so an item identifier has none here.
   No text says whether an ISIL leads. The caller does, and that alone decides:
   DK-1.31 is the ISIL DK-1 and the item identifier 31 where one leads, and the
   item identifier DK-1, ordinal 1 of a total of 3, where none does.
   Set information is digits: the total, which element 4 calls its parts, then
   the ordinal, in the same count of digits, leading zeros kept.
       two digits   total 1 to 9       31       ordinal 1 of 3
       four         10 to 99           1207     ordinal 7 of 12
       six          100 to 255         120007   ordinal 7 of 120
   The ordinal is at most the total, and may be 0. The total alone decides how
   many digits there are: 00, 0301 and 012007 are no set information. Where the
   part is left out both numbers are 0, and element 4 is 00 00 00 00.
   A single S in place of set information points to another bank of the tag.
   That is refused with 23. A host that has read the other bank takes the text
   apart without its last two characters, and puts in element 4 itself.
   The item identifier has at most 255 bytes, and TEXT says what they may be: so
   bytes from 80 hex on pass where they are UTF-8, though no words can be made
   of them. What is put together comes apart into the same three elements, an
   ISIL leading where 3 is not empty; what was taken apart, put together, is the
   same text again. A sheet made of them needs element 5 too.
   So CH-000134-1.12345678.31 is, where an ISIL leads, 3 CH-000134-1, 1 12345678
   and 4 03 00 01 00, ordinal 1 of 3; where none does, it has a part too many.

   OF EVERY CALL
   The answer is 0 when the work is done, else the number of the refusal, one of
   those below. The conditions are tested in the order that is given with the
   call, each over the whole input: the answer is the first that holds. Damage
   alone (15 to 19) is tested from block to block: the first damaged block
   decides, and at that block the first of 15 16 17 18 19 that holds.
   At a refusal nothing changes: no byte of any buffer, and none of the results
   but *place. That is written at 15 to 19: the byte where the damaged block
   begins, counted from 0 at the tag's first byte, so at least 34 and below
   tag_len. At every other answer, 0 among them, it is as it was.
   A length counts bytes, or words where the buffer is of uint16_t. A length of
   0 means none, and the pointer beside it may then be null. A length is never
   more than what the buffer has. The results (used, pages, place, and each that
   ends in _used) are never null.
   The buffers and results of one call are separate: none overlaps another.
   Nothing is kept from one call to the next and nothing is allocated, so calls
   on different buffers may run at the same time.

   SENDING PAGES
   A call changes the tag in memory, and says how many pages have changed but
   not which. A host that sends single pages to the chip keeps a copy of the tag
   from before the call, compares it with the tag page by page, and sends those
   that differ. Where sending stops halfway, the tag on the chip may be
   unreadable; writing the same sheet again, on what is read from the chip, lays
   the same bytes down, whatever is there. */
#ifndef URPANELLA_H
#define URPANELLA_H

#include <stddef.h>
#include <stdint.h>

#ifdef __cplusplus
extern "C" {
#endif

/* Sizes that always suffice. No tag gives a sheet of more than 4,763 bytes: 2
   for the count; 4 for each of at most 671 carried blocks (3 bytes is the
   shortest, and 2,014 bytes follow the first 34) and 7 other entries; 2,014
   bytes of blocks; 35 bytes of elements that stand in the first 34 bytes. */
#define URP_PAGE 4
#define URP_TAG_MAX 2048
#define URP_LOCKS_MAX 512
#define URP_SHEET_MAX 8192
#define URP_OLD_MAX 255

/* Sizes that always suffice for elements 1, 3 and 4 of a UHF tag's identifier,
   and for its text: 16 and 255 bytes, 6 digits and 2 dots. */
#define URP_ITEM_MAX 255
#define URP_ISIL_MAX 16
#define URP_SET_MAX 4
#define URP_IDENTIFIER_MAX 279

/* Bytes of stack for any call, with some to spare: measured over some hundred
   thousand calls on x86-64, and not proved. docs/FIGURES.md has each call's. */
#define URP_STACK_MAX 10240

/* Element numbers. */
#define URP_ELEMENT_PRIMARY_ITEM 1
#define URP_ELEMENT_OWNER 3
#define URP_ELEMENT_SET 4
#define URP_ELEMENT_USAGE 5
#define URP_ELEMENT_MEDIA 19
#define URP_ELEMENT_ALTERNATIVE_ITEM 22
#define URP_ELEMENT_ALTERNATIVE_OWNER 23
#define URP_ELEMENT_CARRIED 255

/* Answers. urpanella_text.h has a sentence for each. */
#define URP_DONE 0
#define URP_SIZE 1      /* tag length; or a lock map that has not one byte for
                           each page, or a byte above 1 */
#define URP_ROOM 2      /* buffer for the sheet, text, words or an element too
                           short, or old-element buffer under 255 bytes */
#define URP_CONTENT 3   /* content parameter not 1 */
#define URP_CHECK 4     /* CRC differs */
#define URP_FIELD 6     /* a field breaks its form, or the tag has an ordinal
                           above its parts; a part of a UHF tag's identifier
                           breaks its form */
#define URP_MISMATCH 7  /* usage, marker and block 1 disagree */
#define URP_SHEET 8     /* header, order, offsets or end of the sheet wrong */
#define URP_VALUE 9     /* unknown number, bad value, 4 or 5 missing; a dot in
                           the item identifier of a UHF tag */
#define URP_CLASH 10    /* two elements clash */
#define URP_LARGE 11    /* no layout in this tag or in block 1 */
#define URP_LOCKED 12   /* a locked page would get other bytes */
#define URP_LOOSE 13    /* editing: readable, but not the writer's own layout */
#define URP_OFFSET 14   /* reading: an offset would pass 65,535 */

/* Damage in the chain of blocks, with the damaged block's place in *place.
   5, which once stood for all of these, is no longer given. */
#define URP_BLOCK_LENGTH 15    /* a block says that its length is 2 */
#define URP_BLOCK_END 16       /* a block runs past the tag's end */
#define URP_BLOCK_ID 17        /* a block has ID 0; or an ID of 1 to 100 and
                                  fewer than 4 bytes */
#define URP_BLOCK_CHECKSUM 18  /* a block's checksum differs */
#define URP_BLOCK_SECOND 19    /* a second block 1 */

/* UHF words. */
#define URP_WORD 20       /* reading: a word with no meaning */
#define URP_CHARACTER 21  /* writing: a character above 7F hex */

/* The text of a UHF tag's identifier. */
#define URP_PARTS 22  /* too few or too many parts */
#define URP_BANK 23   /* S: the set information is in another bank */

/* Is this an answer that comes with a place, one of 15 to 19? The argument is
   evaluated once. */
#define URP_HAS_PLACE(answer) ((uint32_t)(answer) - 15u <= 4u)

/* Reads a tag into a sheet.
   Takes   tag[0 .. tag_len): the tag. It is only read.
           sheet[0 .. sheet_len): room for the sheet; URP_SHEET_MAX always
           suffices, and room for exactly the sheet is enough.
   Done    sheet[0 .. *used) is the sheet and *used its length; the bytes of
           the buffer from there on are as they were.
   Refuses 1 3 4 15-19 6 7 14 2, in this order; at 15 to 19 *place is where
           the damaged block begins. */
uint32_t urp_read(const uint8_t *tag, size_t tag_len,
                  uint8_t *sheet, size_t sheet_len,
                  size_t *used, size_t *place);

/* Lays a sheet out on a tag, whatever the tag held before.
   Takes   sheet[0 .. sheet_len): the whole sheet. It is only read.
           tag[0 .. tag_len): the tag as it is now; it need not be readable.
           locks[0 .. locks_len): its lock map, locks_len being tag_len / 4.
           It is only read.
   Done    tag holds the sheet's elements and 00 in every byte that they leave
           free. *pages is the count of pages whose bytes differ before and
           after; it never exceeds the open pages. A locked page keeps its
           bytes: it is refused only where they would change.
   Refuses 1 8 9 10 11 12, in this order. */
uint32_t urp_write(const uint8_t *sheet, size_t sheet_len,
                   uint8_t *tag, size_t tag_len,
                   const uint8_t *locks, size_t locks_len,
                   size_t *pages);

/* Sets or removes one element on a tag that has urp_write's own layout.
   Takes   tag[0 .. tag_len): the tag as it is now.
           locks[0 .. locks_len): its lock map, as for urp_write.
           number: the element, one of 1, 3, 4, 5, 19, 22 and 23.
           value[0 .. value_len): its new bytes, at most 255, in the form of
           the sheet; value_len 0 removes the element. It is only read.
           old[0 .. old_len): room for the old element; old_len is 255
           (URP_OLD_MAX) or more, also where there is none.
   Done    tag has the element's new bytes and is otherwise laid out as
           urp_write would. *pages is the count of pages whose bytes differ
           before and after. old[0 .. *old_used) is the element as it was, in
           the form of the sheet, *old_used being 0 where there was none; the
           bytes of the buffer from there on are as they were.
           Setting what is already there, or removing what is not, is done and
           changes 0 pages. Handing the old element back as value, under the
           same lock map, undoes the edit and counts the same pages; value and
           old are separate, so copy it first.
   Refuses 1 3 4 15-19 6 7 13 2 9 10 11 12, in this order; at 15 to 19 *place
           is where the damaged block begins. Removing 4 or 5 is 9; so are 255,
           any other number that is not in the table, and more than 255 new
           bytes. */
uint32_t urp_edit(uint8_t *tag, size_t tag_len,
                  const uint8_t *locks, size_t locks_len,
                  uint32_t number,
                  const uint8_t *value, size_t value_len,
                  uint8_t *old, size_t old_len,
                  size_t *pages, size_t *old_used, size_t *place);

/* Reads words of a UHF tag into the text that they stand for.
   Takes   words[0 .. words_len): the words. They are only read.
           text[0 .. text_len): room for the text; 3 bytes for each word always
           suffice, and room for exactly the text is enough.
   Done    text[0 .. *used) is the text, one byte for each character, 00 to 7F
           hex, with no 00 behind it; *used is its length. The bytes of the
           buffer from there on are as they were. No words give no text.
   Refuses 20 2, in this order. */
uint32_t urp_words_to_text(const uint16_t *words, size_t words_len,
                           uint8_t *text, size_t text_len,
                           size_t *used);

/* Makes the words of a text.
   Takes   text[0 .. text_len): the text, one byte for each character. It is
           only read.
           words[0 .. words_len): room for the words; one for each character
           always suffices, and room for exactly the words is enough.
   Done    words[0 .. *used) are the words and *used is their count; the words
           of the buffer from there on are as they were. No text gives no words.
   Refuses 21 2, in this order. */
uint32_t urp_text_to_words(const uint8_t *text, size_t text_len,
                           uint16_t *words, size_t words_len,
                           size_t *used);

/* Takes the text of a UHF tag's identifier apart into elements.
   Takes   text[0 .. text_len): the text. It is only read.
           isil_leads: 0 if no ISIL leads, any other number if one does.
           item[0 .. item_len), isil[0 .. isil_len), set[0 .. set_len): room
           for elements 1, 3 and 4; URP_ITEM_MAX, URP_ISIL_MAX and URP_SET_MAX
           always suffice, and room for exactly each is enough: none for
           element 3 where no ISIL leads, 4 bytes for element 4 always.
   Done    item[0 .. *item_used) is element 1, isil[0 .. *isil_used) element 3,
           *isil_used being 0 where no ISIL leads, and set[0 .. *set_used)
           element 4, *set_used being 4. The bytes of the buffers from there on
           are as they were.
   Refuses 22 6 23 2, in this order. 22: where an ISIL leads there are not 2 or
           3 parts, else not 1 or 2; text_len 0 is one empty part. 6: the ISIL
           is none; the item identifier is empty, has more than 255 bytes or
           breaks TEXT; or set information is neither S nor as it has to be.
           2: one of the three buffers is too short, and none is filled. */
uint32_t urp_take_apart(const uint8_t *text, size_t text_len,
                        uint32_t isil_leads,
                        uint8_t *item, size_t item_len,
                        uint8_t *isil, size_t isil_len,
                        uint8_t *set, size_t set_len,
                        size_t *item_used, size_t *isil_used,
                        size_t *set_used);

/* Puts elements together to the text of a UHF tag's identifier.
   Takes   item[0 .. item_len): element 1, at most 255 bytes, with no dot.
           isil[0 .. isil_len): element 3; isil_len 0 means no ISIL.
           set[0 .. set_len): element 4, which is 4 bytes; 00 00 00 00 gives no
           set information. The three are only read.
           text[0 .. text_len): room for the text; URP_IDENTIFIER_MAX always
           suffices, and room for exactly the text is enough.
   Done    text[0 .. *used) is the text and *used its length; the bytes of the
           buffer from there on are as they were. No S is ever written.
   Refuses 9 2, in this order. */
uint32_t urp_put_together(const uint8_t *item, size_t item_len,
                          const uint8_t *isil, size_t isil_len,
                          const uint8_t *set, size_t set_len,
                          uint8_t *text, size_t text_len,
                          size_t *used);

#ifdef __cplusplus
}
#endif

#endif

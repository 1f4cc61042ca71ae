#!/usr/bin/env python3
"""Brings the names of this repository's own definitions and laws to the spelling of today's Rattle: words in snake case, facts in camel case.

usage: python3 tools/respell.py      once, at the top, right after the kit's port.py
"""
import re
import subprocess

# A law whose name falls together with the new name of a definition gets `_lem`.
LAWS = {
    "first_byte": "first_byte_lem",
    "owner_of": "owner_of_lem",
    "stands_at": "stands_at_lem",
    "xor_all": "xor_all_lem",
}

FACTS = {
    "thatPart": "ThatPart",
    "stored": "Stored",
}

WORDS = """
accentTag accent_tag
alternativeBy alternative_by
alternativeItemBy alternative_item_by
alternativeOwnerBy alternative_owner_by
answerGiven answer_given
atsBy ats_by
atsIn ats_in
basicJudged basic_judged
basicOwner basic_owner
blockItem block_item
blockOne block_one
blockPart block_part
blockThen block_then
blockUsage block_usage
blockWith block_with
blocksIn blocks_in
bodyIn body_in
bookTag book_tag
bookText book_text
carriedAt carried_at
carriedEntries carried_entries
carriedHeads carried_heads
carriedIn carried_in
carriedOn carried_on
chainFrom chain_from
changedBack changed_back
characterOf character_of
charactersAt characters_at
charactersOf characters_of
checkPart check_part
codePoints code_points
contentIn content_in
contentOf content_of
countBy count_by
countIn count_in
countStored count_stored
crcBit crc_bit
crcBits crc_bits
crcByte crc_byte
crcFrom crc_from
cutField cut_field
cutFrom cut_from
cutGiven cut_given
cutTag cut_tag
damageBy damage_by
damageNumbers damage_numbers
damageOf damage_of
damageSteps damage_steps
damagedAt damaged_at
damagedFirst damaged_first
damagedLate damaged_late
damagedTag damaged_tag
danishWords danish_words
decodeGives decode_gives
decodeSteps decode_steps
draftSteps draft_steps
editGiven edit_given
editGives edit_gives
editRefused edit_refused
editSteps edit_steps
editStepsBy edit_steps_by
editingBy editing_by
elementsOf elements_of
elementsText elements_text
elementsWord elements_word
encodeGives encode_gives
encodeSteps encode_steps
endFrom end_from
endingZeros ending_zeros
entriesIn entries_in
fieldDk field_dk
fieldsGiven fields_given
fieldsIn fields_in
fieldsSize fields_size
filledAll filled_all
firstByte first_byte
formBy form_by
formedBy formed_by
foundIf found_if
foundOn found_on
frontMade front_made
fullSheet full_sheet
fullTag full_tag
goodElements good_elements
goodFields good_fields
goodFieldsBy good_fields_by
goodItem good_item
goodLibrary good_library
goodLibraryBy good_library_by
goodNames good_names
goodOwner good_owner
goodOwnerBy good_owner_by
goodParts good_parts
goodSet good_set
goodSize good_size
goodValues good_values
goodValuesBy good_values_by
hasLayout has_layout
headsBy heads_by
headsDecide heads_decide
hexDigit hex_digit
hexOf hex_of
identifierOf identifier_of
illFormed ill_formed
inOrder in_order
isIn is_in
isLoose is_loose
isOpen is_open
isOwner is_owner
isOwnerBy is_owner_by
isS is_s
isSheetOf is_sheet_of
isilBy isil_by
isilBytes isil_bytes
isilDk isil_dk
isilFront isil_front
isilIn isil_in
isilMade isil_made
isilOclc isil_oclc
isilOf isil_of
isilPart isil_part
isilUs isil_us
isilWith isil_with
itemBy item_by
itemField item_field
itemForm item_form
itemGiven item_given
itemIn item_in
itemOn item_on
itemPart item_part
itemParts item_parts
itemSeen item_seen
itemSheet item_sheet
joinGives join_gives
joinSteps join_steps
kindIs kind_is
laidOut laid_out
lastField last_field
layingSteps laying_steps
layoutIs layout_is
lengthsOf lengths_of
lensBy lens_by
lensIn lens_in
libraryBytes library_bytes
libraryFields library_fields
libraryForm library_form
libraryGiven library_given
libraryIn library_in
libraryOn library_on
libraryParts library_parts
libraryPartsOn library_parts_on
librarySeen library_seen
lockJudged lock_judged
lockMap lock_map
lockMaps lock_maps
lockedChanged locked_changed
lockedDiffers locked_differs
longAccentTag long_accent_tag
longItem long_item
lookGiven look_given
lookSteps look_steps
looseTags loose_tags
madeBy made_by
madeIn made_in
mainUsage main_usage
markedSheet marked_sheet
markedTag marked_tag
mediaLength media_length
mediaSheet media_sheet
needAt need_at
numberFrom number_from
numbersIn numbers_in
numbersRise numbers_rise
offsetsFit offsets_fit
offsetsRight offsets_right
onFirst on_first
oneByte one_byte
oneCapital one_capital
oneGives one_gives
onwardPart onward_part
openPages open_pages
ordinalIn ordinal_in
ordinalOf ordinal_of
otherBlocks other_blocks
otherSheet other_sheet
overlongRefused overlong_refused
ownBlocks own_blocks
ownLayout own_layout
ownPart own_part
ownerField owner_field
ownerForm owner_form
ownerGiven owner_given
ownerIn owner_in
ownerOf owner_of
ownerOn owner_on
ownerParts owner_parts
ownerPartsOn owner_parts_on
ownerSaid owner_said
ownerSeen owner_seen
ownerWidth owner_width
padWith pad_with
pageSize page_size
partGives part_gives
partSteps part_steps
partedGiven parted_given
partsBehind parts_behind
partsFor parts_for
partsOn parts_on
pieceBy piece_by
placeFrom place_from
placedText placed_text
plainSheet plain_sheet
plainTag plain_tag
prefixIn prefix_in
readGiven read_given
readGives read_gives
readIn read_in
readSteps read_steps
readStepsBy read_steps_by
readingBy reading_by
refusalGiven refusal_given
refusalNumber refusal_number
refusalOf refusal_of
refusalPlace refusal_place
refusedText refused_text
refusedWord refused_word
restIn rest_in
resultsInC results_in_c
rightCharacter right_character
rightCount right_count
rightPlace right_place
rightSheet right_sheet
rightValue right_value
risingFrom rising_from
roomOf room_of
saidItem said_item
samePages same_pages
saysSet says_set
setBytes set_bytes
setEnd set_end
setGiven set_given
setInfo set_info
setOf set_of
setPart set_part
setPlace set_place
setSheet set_sheet
sharedPages shared_pages
sheetContent sheet_content
sheetIn sheet_in
sheetOf sheet_of
sheetRoom sheet_room
sizeBy size_by
slotsAt slots_at
someText some_text
stageGiven stage_given
standsAt stands_at
standsIn stands_in
startsOf starts_of
sumBy sum_by
surveyGiven survey_given
surveyOf survey_of
swissIsil swiss_isil
swissItem swiss_item
swissWords swiss_words
tagRefusals tag_refusals
tagSteps tag_steps
tagStored tag_stored
tailPart tail_part
takenApart taken_apart
textBefore text_before
totalIn total_in
twoSteps two_steps
unitByte unit_byte
usageBy usage_by
usageOf usage_of
valueBy value_by
valueSteps value_steps
valuesAt values_at
valuesDecide values_decide
viewIn view_in
wellFormed well_formed
wholeFront whole_front
wholeSheet whole_sheet
wholeTag whole_tag
wholeText whole_text
wideNumber wide_number
withCheck with_check
withPage with_page
wordsFrom words_from
writeGives write_gives
writeSteps write_steps
writeStepsBy write_steps_by
writingBy writing_by
wrongSheets wrong_sheets
xorAll xor_all
"""

# Where `stored` is the fact of this module, and not a field or a word of a comment.
STORING = re.compile(r"format\.specs\.Pieces\.\{[^}]*\bstored\b")

TOKEN = re.compile(r"[^\s(){}\[\],;.:`\"|λ]+")


def respelled(line, words):
    found = re.match(r"(\s*(?:--|//))(.*)", line, re.S)
    if found:
        return found.group(1) + TOKEN.sub(lambda m: WORD_TABLE.get(m.group(0), m.group(0)), found.group(2))
    return TOKEN.sub(lambda m: words.get(m.group(0), m.group(0)), line)


WORD_TABLE = dict(line.split() for line in WORDS.split("\n") if line)


def main():
    files = subprocess.check_output(["git", "ls-files", "-c", "-o", "--exclude-standard", "crates"], text=True).split("\n")
    changed = 0
    for path in files:
        if not path.endswith((".antt", ".rt")):
            continue
        try:
            with open(path, encoding="utf-8") as f:
                text = f.read()
        except FileNotFoundError:
            continue
        words = dict(WORD_TABLE, thatPart=FACTS["thatPart"])
        if path.endswith(".antt"):
            words |= LAWS
        if path.endswith("format/specs/Pieces.antt") or STORING.search(text):
            words["stored"] = FACTS["stored"]
        new = "".join(respelled(line, words) for line in text.splitlines(keepends=True))
        if new != text:
            changed += 1
            with open(path, "w", encoding="utf-8") as f:
                f.write(new)
    print(f"respell: {changed} files")


if __name__ == "__main__":
    main()

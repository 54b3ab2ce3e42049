/*
 * sxf.h: reads and writes sheets of binary SXF, edition 4.0, for C99 and C++. Link with libsxf.a (`rt lib` in crates/sxf makes it, for x86-64
 * Linux).
 *
 * Answers. Each call takes every value of its arguments and answers one struct by value. number is 0 (SXF_OK) on success. Else it is
 * the number of the refusal, with its place and year, and every other field is 0. The place is a byte of the sheet, from 0, for
 * sxf_write's table an index of the table, for SXF_NO_CHARACTER an index of the bytes or units that were to be turned, and for
 * SXF_BAD_BLOCK a byte of the code index; the year is 0 except for SXF_TOO_NEW. (sxf_visibility has no refusal; what the place of a
 * refusal counts from where no sheet is lent is said beside the call.)
 *
 * Years. A sheet is read or written for a year, one of 1999, 2004, 2006, 2008, 2012, 2014, 2015, 2016 and 2017: what came later is
 * refused as SXF_TOO_NEW. Any other year is refused first of all, as SXF_ASK at place 0.
 *
 * What is lent. A pointer and the length after it, in elements, are one argument: so many elements can be read there or, where the
 * pointer is not const, read and written, and nothing else writes to them before the call returns. No pointer is null, one of length 0
 * neither: give the address of any object. A pointer to uint64_t or uint16_t is aligned as one.
 *
 * What is written. Only table, elements and bytes of sxf_unfold, out of sxf_write, units of sxf_to_utf16, text of sxf_from_utf16, index of
 * sxf_index_build, entries of sxf_index_read and picks of sxf_index_select and sxf_select are written to. None of these may overlap
 * another argument of the same call. A refusal leaves them as they were; success writes only the lengths that the answer states, from the
 * start of each. Nothing is kept after a call, nothing is allocated, and calls in several threads do not disturb one another.
 */
#ifndef SXF_H
#define SXF_H

#include <stddef.h>
#include <stdint.h>
#include <string.h>

/*
 * The version of this header, and of the archive that goes with it. It is raised where a program has to be changed or built again, and
 * docs/CHANGES.md says how. Neither the compiler nor the linker tells a program of one version from an archive of another: rows of another
 * width would be misread, and an answer by value may be longer than the program thinks. So say what the program was written for, and ask the
 * archive once:
 *
 *     #if SXF_VERSION != 4
 *     #error "written for version 4 of sxf.h"
 *     #endif
 *     if (sxf_version() != SXF_VERSION) ..
 *
 * 4: a sheet may have 67,108,864 bytes, where it had 16,777,216 at most, and a block of a new code index has 56 entries, where it had 63. A
 * program that was built with an earlier SXF_LIMIT or SXF_INDEX_LENGTH lends too little for such a sheet, and for many an index, and is answered
 * SXF_ROOM; where what it lends is enough, it gets an index of new blocks. An archive of version 3 or older refuses new blocks, SXF_BAD_BLOCK at 0.
 * 3: sxf_head has four fields more, which tell whether the tails of the text fields are clean, and a sheet with a tail that is not is read.
 * 2: a record's row has nine numbers, and sxf_record the field mark. Headers of rows of eight numbers have no version, and their archives
 * no sxf_version.
 */
#define SXF_VERSION 4

#ifdef __cplusplus
extern "C" {
#endif

/* The refusals. */
enum {
    SXF_OK = 0,
    SXF_TOO_LONG = 1,     /* the sheet is over SXF_LIMIT bytes; place 0 */
    SXF_SHORT = 2,        /* the sheet, or what is left of it for a record, is too short */
    SXF_NOT_SXF = 3,      /* an identifier differs */
    SXF_EDITION = 4,      /* a fixed length or the edition differs */
    SXF_SUM = 5,          /* the sum, of which the low 32 bits are kept, differs; place 12 */
    SXF_TEXT = 6,         /* reading: a text field has no zero at all; sxf_write: a text is too long for its field or has a zero in it; or a
                             closing zero is missing */
    SXF_RESERVED = 7,     /* a value is not allowed at a flag, code or reserved field */
    SXF_TOO_NEW = 8,      /* a feature is later than the year asked for; the answer's year is the feature's */
    SXF_NOT_CARRIED = 9,  /* a binding vector or graphics */
    SXF_LENGTH = 10,      /* a length is too small, does not fit or leaves bytes over */
    SXF_COUNT = 11,       /* a count of points does not agree with the record's mark, or under the mark with the word at +24 */
    SXF_SEMANTIC = 12,    /* an item's type, scale or length */
    SXF_LEFT_OVER = 13,   /* bytes after the last record */
    SXF_TABLE = 14,       /* a record table that is no table of a sheet (sxf_write), or a reference or bits too large (sxf_coordinate_of) */
    SXF_ROOM = 15,        /* a lent output is too small; sxf_unfold: place 1 table, 2 elements, 3 bytes; else place 0 */
    SXF_ASK = 16,         /* the year is none of the nine, the record's number is not below the count, a point has no such dimension, or
                             there is no such coding; place 0 */
    SXF_NO_CHARACTER = 17, /* a byte has no character, or a 16-bit unit has no byte, in the coding; the place is its index */
    SXF_BAD_BLOCK = 18     /* a block of a code index has a wrong length, number, count, kind, filling or sum; the place is the block's first byte */
};

/* Places in a sheet. Each of the four text fields starts at its place and has SXF_DATE_SIZE bytes or, the other three, SXF_TEXT_SIZE: its text, of the
   length that sxf_head_of answers, a zero, and its tail, which is what stands after that first zero. The carried bytes are the rest of the passport,
   96 to 399, and the four of the descriptor, 444 to 447. */
enum {
    SXF_DATE_AT = 16,
    SXF_DESIGNATION_AT = 28,
    SXF_TITLE_AT = 64,
    SXF_REST_AT = 96,
    SXF_FRAME_AT = 348,   /* the class code of the frame, four bytes */
    SXF_DESIGNATION2_AT = 408,
    SXF_CARRIED_AT = 444,
    SXF_RECORDS_AT = 452, /* the first record, where there is one */
    SXF_DATE_SIZE = 12,
    SXF_TEXT_SIZE = 32,
    SXF_REST_SIZE = 304,
    SXF_CARRIED_SIZE = 4,
    SXF_LIMIT = 67108864  /* bytes of a sheet at most */
};

/* The earlier names of the four carried bytes, for programs that have them. */
#define SXF_FLAGS_AT SXF_CARRIED_AT
#define SXF_FLAGS_SIZE SXF_CARRIED_SIZE

/* What a sheet has: the low 32 bits of its sum, its count of records, and the lengths of the three parts of its record table. The sum is that of all
   its bytes, with the four at 12 counted as zero. */
typedef struct {
    uint64_t number, place, year, sum, records, numbers, elements, bytes;
} sxf_checked;

/* Checks a sheet. */
sxf_checked sxf_check(const uint8_t *sheet, size_t sheet_len, uint32_t year);

/* The version that the archive has: SXF_VERSION of its own header. */
uint32_t sxf_version(void);

/* The record table: which number of a record's row, of a part and of an item stands where, and how many there are. */
enum {
    SXF_ROW_CODE = 0,
    SXF_ROW_IN_GROUP = 1,
    SXF_ROW_GROUP = 2,
    SXF_ROW_REFERENCE = 3,
    SXF_ROW_GENERALISATION = 4,
    SXF_ROW_WORD = 5,
    SXF_ROW_PARTS = 6,
    SXF_ROW_ITEMS = 7,
    SXF_ROW_MARK = 8,
    SXF_ROW_WIDTH = 9,
    SXF_PART_POINTS = 0,
    SXF_PART_TEXT_LENGTH = 1,
    SXF_PART_WIDTH = 2,
    SXF_ITEM_CODE = 0,
    SXF_ITEM_TYPE = 1,
    SXF_ITEM_SCALE = 2,
    SXF_ITEM_LENGTH = 3,
    SXF_ITEM_WIDTH = 4
};

/*
 * Checks a sheet and unfolds its record table into three outputs, which are as long as sxf_check answers, or longer.
 *
 * table has, for each record, SXF_ROW_WIDTH numbers: code, number in group, group number, reference (the bytes +20 to +22 as one number,
 * +20 lowest: its low four bits are the localisation), generalisation, the word at +24, parts, items, mark; then for each part
 * SXF_PART_WIDTH: points, length of its text; then for each item SXF_ITEM_WIDTH: code, type, scale byte, length of its value. The mark is
 * 1 where the points at +30 are 65535: the word is then the first part's points, and a later part may have more than 65535. Else it is 0.
 * elements has the elements of all points as stored bits: sxf_double makes a double of eight bytes' bits. bytes has, for each record, the
 * texts of its parts without their closing zero, then the values of its items with theirs.
 */
sxf_checked sxf_unfold(const uint8_t *sheet, size_t sheet_len, uint32_t year,
                       uint64_t *table, size_t table_len,
                       uint64_t *elements, size_t elements_len,
                       uint8_t *bytes, size_t bytes_len);

/* A record: where it starts (at), its total length, the nine numbers of its row in the table, and the points of its first part. */
typedef struct {
    uint64_t number, place, year, at, total, code, in_group, group, reference, generalisation, word, parts, items, mark, points;
} sxf_record;

/* The record of a number, from 0. After the sheet's own refusals a number that is not below the count of records is SXF_ASK. The whole
   sheet is checked at each call: to go through all records, unfold the sheet once. */
sxf_record sxf_record_at(const uint8_t *sheet, size_t sheet_len, uint32_t year, uint64_t record);

/* The head as sxf_write takes it: the lengths of the four texts, and the scale's denominator. Then, for each text field, whether its tail is clean:
   1 where there are only zeros after the first one, or nothing; 0 where an editor left old letters there. */
typedef struct {
    uint64_t number, place, year, date, designation, title, designation2, scale, date_clean, designation_clean, title_clean, designation2_clean;
} sxf_head;

sxf_head sxf_head_of(const uint8_t *sheet, size_t sheet_len, uint32_t year);

/* Units of coordinates. */
enum {
    SXF_DEVICE_POINTS = 1,
    SXF_METRES = 2,
    SXF_RADIANS = 3,
    SXF_DEGREES = 4,
    SXF_UNKNOWN_UNIT = 5
};

/* The unit of a sheet's coordinates; byte is the passport's byte at 236 where it names no unit (SXF_UNKNOWN_UNIT), else 0. */
typedef struct {
    uint64_t number, place, year, unit, byte;
} sxf_unit;

sxf_unit sxf_unit_of(const uint8_t *sheet, size_t sheet_len, uint32_t year);

/* The numbers of a point, in the order in which its elements stand. */
enum {
    SXF_NORTH = 0,
    SXF_EAST = 1,
    SXF_HEIGHT = 2
};

/* What a number is. */
enum {
    SXF_NO_NUMBER = 0, /* a text (sxf_value) */
    SXF_WHOLE = 1,     /* an integer */
    SXF_SINGLE = 2,    /* a floating number of four bytes */
    SXF_DOUBLE = 3,    /* a floating number of eight bytes */
    SXF_NAN = 4,       /* floating, and no number */
    SXF_DECIMAL = 5    /* an integer times a power of ten (sxf_value) */
};

/* An element of a point: its unit, and byte where that is SXF_UNKNOWN_UNIT, else 0; how many bytes it has in the sheet; what kind of
   number it is; and the bits, for sxf_double, of the double that it stands for, which is exact. For SXF_NAN the bits are those stored. */
typedef struct {
    uint64_t number, place, year, unit, byte, width, kind, bits;
} sxf_coordinate;

/* What an element stands for. rest is the sheet from SXF_REST_AT on, where its units stand: a caller names none. A height is in metres or
   of unknown unit by its own byte, 237, whatever the unit of the plane. reference is the record's number of that name, bits an element of
   its points, as sxf_unfold has them. Refused are, in this order, a dimension that is none of the three, SXF_ASK at place 0; a reference over
   three bytes, SXF_TABLE at 3, its index in a record's row; a height of a record that has none, SXF_ASK at 0; bits too wide for the element,
   SXF_TABLE at 0. No element of a sheet is refused. */
sxf_coordinate sxf_coordinate_of(const uint8_t rest[304], uint32_t reference, uint32_t dimension, uint64_t bits);

/* The eight plane corners as the bits stored, for sxf_double: X and Y of the south-west, north-west, north-east and south-east one.
   nan_at is the place in the sheet of the first that is a NaN, or 0 if all are numbers. */
typedef struct {
    uint64_t number, place, year, nan_at, sw_x, sw_y, nw_x, nw_y, ne_x, ne_y, se_x, se_y;
} sxf_corners;

sxf_corners sxf_corners_of(const uint8_t *sheet, size_t sheet_len, uint32_t year);

/* The double of stored bits. */
static inline double sxf_double(uint64_t bits)
{
    double d;
    memcpy(&d, &bits, sizeof d);
    return d;
}

/* The scales between which a record is shown, as denominators. set 0: unset, and both are 0. */
typedef struct {
    uint64_t set, lower, upper;
} sxf_visibility;

/* flags is the sheet's byte at 96, byte a record's generalisation. */
sxf_visibility sxf_visibility_of(uint8_t flags, uint8_t byte);

/* The value of an item. kind SXF_DECIMAL: whole times ten to the power. SXF_DOUBLE: the double of bits; SXF_NAN: bits as stored.
   SXF_NO_NUMBER: a text. What a value does not have is 0. */
typedef struct {
    uint64_t number, place, year, kind, bits;
    int64_t whole, power;
} sxf_value;

/* The number of a semantic item: kind is its type, scale its scale byte, bits its value, lowest byte first. Types 1, 2 and 4 are decimals, of
   so many low bytes of bits; type 8 is a double, whatever its scale; types 0, 126, 127 and 128 are texts. Scale 0x80 of a decimal is refused,
   SXF_SEMANTIC at place 3 of the item, and a type that is none of these, SXF_SEMANTIC at 2. */
sxf_value sxf_value_of(uint8_t kind, uint8_t scale, uint64_t bits);

/* How much of the output was written: bytes of a sheet, of a text or of a code index, 16-bit units, or 64-bit numbers, three an entry or pick. */
typedef struct {
    uint64_t number, place, year, length;
} sxf_written;

/*
 * Writes a sheet from its head and its record table, as sxf_head_of and sxf_unfold answer them. The date has at most 11 bytes, the other
 * three texts 31; one that is longer or has a zero in it is SXF_TEXT. rest has the 304 bytes from 96 on, carried the four from 444 on. The sum,
 * the counts and all lengths are computed. A record needs mark 1 where its first part has 65535 points or more, or a later one more than 65535;
 * from 2004 on any record may have it, and then its word is its first part's points. Else: SXF_TABLE for a mark over 1 and SXF_TOO_NEW for one
 * before 2004, at the mark's index; SXF_COUNT at a part's points. SXF_LIMIT bytes of out are always enough.
 *
 * What was read of a sheet, written for the same year, gives the sheet's bytes with the tails of its text fields cleared, which are then zeros, and
 * the sum to match. Where sxf_head_of answers that all four are clean, that is its bytes.
 */
sxf_written sxf_write(uint32_t year,
                      const uint8_t *date, size_t date_len,
                      const uint8_t *designation, size_t designation_len,
                      uint32_t scale,
                      const uint8_t *title, size_t title_len,
                      const uint8_t rest[304],
                      const uint8_t *designation2, size_t designation2_len,
                      const uint8_t carried[4],
                      const uint64_t *table, size_t table_len,
                      const uint64_t *elements, size_t elements_len,
                      const uint8_t *bytes, size_t bytes_len,
                      uint8_t *out, size_t out_len);

/* Codings of text, one byte a character, by the number that a sheet has at byte 97 for its labels. A record whose Unicode bit is set has its
   labels in UTF-16 instead, lowest byte first. Of semantic items type 0 is SXF_DOS, type 126 SXF_WINDOWS, and types 127 and 128 are UTF-16;
   the texts of passport and descriptor are SXF_WINDOWS. */
enum {
    SXF_DOS = 0,     /* code page 866 */
    SXF_WINDOWS = 1, /* code page 1251, whose byte 0x98 has no character */
    SXF_KOI8 = 2     /* KOI8-R */
};

/*
 * Turns text of a coding into UTF-16, one unit a byte, and back, one byte a unit; all bytes are turned, zeros and controls too. Turning there
 * and back gives the same bytes. length is how many were written, which is text_len there and units_len back. Refused are, in this order, a
 * coding that is none of the three, SXF_ASK; the first byte that has no character, or unit that has no byte, SXF_NO_CHARACTER at its index,
 * however short the output is; an output too short, SXF_ROOM.
 */
sxf_written sxf_to_utf16(uint32_t coding, const uint8_t *text, size_t text_len, uint16_t *units, size_t units_len);

sxf_written sxf_from_utf16(uint32_t coding, const uint16_t *units, size_t units_len, uint8_t *text, size_t text_len);

/*
 * A code index: a file beside the sheet that has, for each record in order, its class code, its place in the sheet (the byte at which it
 * starts) and its localisation. It is made of blocks of SXF_BLOCK_SIZE bytes: the block's number, from 0 (2 bytes), its count of entries (2),
 * SXF_BLOCK_FULL entries of code (4), place (4) and localisation (1), those that are not used zero, a byte 1 and a byte 0, and the sum of the 510
 * bytes before it modulo 65536 (2), each lowest byte first. Every block but the last has SXF_BLOCK_FULL entries, the last has 1 at least, and a sheet
 * without records has no block.
 *
 * Old index files are read, and never written. Up to version 3 a block had 63 entries of code (4), place (3) and localisation (1), and two zero
 * bytes before its sum. sxf_index_check, sxf_index_read and sxf_index_select take either kind and answer alike; sxf_index_build makes the new one, so
 * build an index again to have it in the new kind. A file has one kind, which the two bytes before the sum of its first block say: 0 and 0 is old, 1
 * and 0 is new, and with any other two that block is SXF_BAD_BLOCK. A later block of the other kind is SXF_BAD_BLOCK at that block.
 *
 * An index does not say which sheet it belongs to, and no call can tell. The index of another sheet, or of this one before it was changed,
 * gives that sheet's records; and one that is cut at the end of a full block is an index too. Compare sxf_index_check's entries with
 * sxf_check's records; to be sure, build it again and compare the bytes, or for an old index file what sxf_index_read gives of both.
 */
enum {
    SXF_BLOCK_SIZE = 512,
    SXF_BLOCK_FULL = 56
};

/* How long the index of so many records is when it is built, as a uint64_t; for counts below 2^32. SXF_INDEX_LENGTH(SXF_LIMIT / 32), 19,174,400
   bytes, is always enough. */
#define SXF_INDEX_LENGTH(records) (((uint64_t)(records) + (SXF_BLOCK_FULL - 1)) / SXF_BLOCK_FULL * SXF_BLOCK_SIZE)

/* The three numbers that sxf_index_read gives for each entry; those that sxf_index_select and sxf_select give for each hit. */
enum {
    SXF_ENTRY_CODE = 0,
    SXF_ENTRY_PLACE = 1,
    SXF_ENTRY_LOCALISATION = 2,
    SXF_ENTRY_WIDTH = 3,
    SXF_PICK_RECORD = 0,
    SXF_PICK_PLACE = 1,
    SXF_PICK_LOCALISATION = 2,
    SXF_PICK_WIDTH = 3
};

/* Builds the index of a sheet. Refused are, in this order, what sxf_check refuses, and an output shorter than SXF_INDEX_LENGTH of the
   sheet's records, SXF_ROOM. */
sxf_written sxf_index_build(const uint8_t *sheet, size_t sheet_len, uint32_t year, uint8_t *index, size_t index_len);

/* What an index has: its entries, and the blocks in which they stand. */
typedef struct {
    uint64_t number, place, year, entries, blocks;
} sxf_index;

/* Checks an index, of either kind. The first bad block is SXF_BAD_BLOCK. A piece of a block at the end is a bad block, and the block before it is then not the
   last, and so bad itself unless it is full. A block whose number does not fit two bytes is bad. What entries hold is not judged. */
sxf_index sxf_index_check(const uint8_t *index, size_t index_len);

/* Reads the entries of an index, SXF_ENTRY_WIDTH numbers each: class code, place, localisation. length is so many times the entries. Refused
   are what sxf_index_check refuses, and then a shorter output, SXF_ROOM. */
sxf_written sxf_index_read(const uint8_t *index, size_t index_len, uint64_t *entries, size_t entries_len);

/*
 * Selects the records of a class code, SXF_PICK_WIDTH numbers each, in record order: the record's number, from 0, its place, its localisation.
 * length is how many numbers were written, 0 where no record has the code. Three for each entry of the index, or for each record of the sheet,
 * are always enough, and with so many the hits are not counted first; a shorter output than the hits need is SXF_ROOM, after every other
 * refusal.
 *
 * sxf_index_select asks an index, and first refuses what sxf_index_check refuses. sxf_select reads the sheet, and first refuses what sxf_check
 * refuses. For the index that sxf_index_build made of that very sheet both answer the same.
 */
sxf_written sxf_index_select(const uint8_t *index, size_t index_len, uint32_t code, uint64_t *picks, size_t picks_len);

sxf_written sxf_select(const uint8_t *sheet, size_t sheet_len, uint32_t year, uint32_t code, uint64_t *picks, size_t picks_len);

/*
 * The first record with a wanted code, without reading the sheet: from header to header, up to the first hit or the last counted record. A header is
 * the 32 bytes that a record begins with: its identifier (FF 7F FF 7F) at +0, its total length at +4 and its code at +12, four bytes each, lowest first.
 * The whole sheet is lent, and only its first 452 bytes and the headers on the way are touched, so that the time goes with the headers looked at.
 *
 * Where there is such a record, found is 1, record is its number, from 0, at is where it starts and total is its total length; the record lies within
 * the sheet. Else these four are 0; ask number first, since a refusal has found 0 too. looked is how many headers were looked at: record + 1, or,
 * where there is no such record, the count of records that the sheet states; in a refusal it is 0. What the record holds is told by the calls that
 * check the sheet: sxf_record_at takes its number.
 *
 * The sheet is not checked, and no year is asked for. On a sheet that sxf_check accepts at some year, it is the first record with that code that
 * reading the sheet gives, or there is none. On other bytes the answer rests only on the sheet's length, its two identifiers ("SXF" and a zero at 0,
 * "DAT" and a zero at 400), its count of records (440 to 443) and the headers looked at. Of these only identifiers and the range of total lengths are
 * checked: a damaged count, code or length can give another record, or none, without a refusal.
 *
 * Refused are, in this order, a sheet over SXF_LIMIT bytes, SXF_TOO_LONG at 0, or under SXF_RECORDS_AT, SXF_SHORT at 0; another identifier at 0 or
 * at 400, SXF_NOT_SXF; then header by header, before its code is looked at: under 32 bytes left, SXF_SHORT, or another identifier, SXF_NOT_SXF, both
 * at the record's start; a total length under 32, SXF_LENGTH, or past the end, SXF_SHORT, both at 4 bytes after it.
 */
typedef struct {
    uint64_t number, place, year, found, record, at, total, looked;
} sxf_hop;

sxf_hop sxf_first_with(const uint8_t *sheet, size_t sheet_len, uint32_t code);

/* The frame of the sheet: the same with the code that stands in the four bytes at SXF_FRAME_AT, lowest first, on which the answer rests too. 0 is a
   code like any other: a sheet that names no frame has 0 there, and then its first record of code 0 is answered, if it has one. */
sxf_hop sxf_frame_of(const uint8_t *sheet, size_t sheet_len);

#ifdef __cplusplus
}
#endif

/* The structs are as the library has them: no padding, and a length is 64 bits. */
#if defined(__cplusplus) && __cplusplus >= 201103L
#define SXF_SIZE(type, words) static_assert(sizeof(type) == 8 * (words), #type)
#elif defined(__STDC_VERSION__) && __STDC_VERSION__ >= 201112L
#define SXF_SIZE(type, words) _Static_assert(sizeof(type) == 8 * (words), #type)
#else
#define SXF_SIZE(type, words) typedef char type##_has_no_padding[sizeof(type) == 8 * (words) ? 1 : -1]
#endif
SXF_SIZE(sxf_checked, 8);
SXF_SIZE(sxf_record, 15);
SXF_SIZE(sxf_head, 12);
SXF_SIZE(sxf_unit, 5);
SXF_SIZE(sxf_coordinate, 8);
SXF_SIZE(sxf_corners, 12);
SXF_SIZE(sxf_visibility, 3);
SXF_SIZE(sxf_value, 7);
SXF_SIZE(sxf_written, 4);
SXF_SIZE(sxf_index, 5);
SXF_SIZE(sxf_hop, 8);
SXF_SIZE(size_t, 1);
#undef SXF_SIZE

#endif

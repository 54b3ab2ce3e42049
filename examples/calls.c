/*
 * Holds sxf.h to the library: each call, on sheets that are written here, and every field of its answer. A field out of its order, or
 * an argument out of its place, shows here. It also prints some coordinates. Exit status: 0 all are as stated, 1 one is not.
 */
#include <inttypes.h>
#include <stdio.h>
#include <string.h>
#include "sxf.h"

/* The bits of the double 1, and of a NaN. */
#define ONE UINT64_C(0x3FF0000000000000)
#define SIGNALLING UINT64_C(0x7FF0000000000001)

static int answers, wrong;

/* The answer, a struct of 64-bit words, is the words stated. */
static void same(const char *what, const void *answer, const uint64_t *stated, size_t words)
{
    uint64_t word;
    answers++;
    for (size_t i = 0; i < words; i++) {
        memcpy(&word, (const char *)answer + 8 * i, 8);
        if (word != stated[i]) {
            printf("%s: word %zu is %" PRIu64 ", not %" PRIu64 "\n", what, i, word, stated[i]);
            wrong++;
            return;
        }
    }
}

#define SAME(answer, ...) same(#answer, &(answer), (const uint64_t[]){ __VA_ARGS__ }, sizeof(answer) / 8)

/* One record with numbers that all differ, of three parts and two items: 127,3 by type 2, and 7 by type 1. */
static const uint64_t table[] = {
    9, 10, 11, 0x0202, 0x24, 12, 3, 2, 0,
    4, 0, 1, 0, 1, 0,
    13, 2, 0xFF, 2, 14, 1, 0, 1,
};
static const uint64_t elements[] = { 21, 22, 23, 24, 25, 26, 27, 28, 29, 30, 31, 32 };
static const uint8_t bytes[] = { 0xF9, 0x04, 0x07 };
enum {
    NUMBERS = SXF_ROW_WIDTH + 3 * SXF_PART_WIDTH + 2 * SXF_ITEM_WIDTH,
    ELEMENTS = 12,
    BYTES = 3,
    TOTAL = 32 + 16 + 8 + 8 + 6 + 5,
    LENGTH = SXF_RECORDS_AT + TOTAL
};

static uint8_t sheet[LENGTH], rest[304];
static const uint8_t carried[4] = { 3, 0, 0, 0 };

static sxf_written written(uint32_t year, const uint64_t *numbers, size_t out_len)
{
    const uint8_t *texts = (const uint8_t *)"abcdefghij";
    return sxf_write(year, texts, 1, texts + 1, 2, 5, texts + 3, 3, rest, texts + 6, 4, carried, numbers, NUMBERS, elements, ELEMENTS, bytes, BYTES,
                     sheet, out_len);
}

/* The sum of a sheet: all its bytes, but the four at 12. The sheets here are too short for it to pass 32 bits. */
static uint64_t sum_of(const uint8_t *s, size_t n)
{
    uint64_t sum = 0;
    for (size_t i = 0; i < n; i++)
        sum += i < 12 || 16 <= i ? s[i] : 0;
    return sum;
}

static void put_sum_right(uint8_t *s, size_t n)
{
    uint64_t sum = sum_of(s, n);
    for (size_t i = 0; i < 4; i++)
        s[12 + i] = (uint8_t)(sum >> 8 * i);
}

static void sheets(void)
{
    uint64_t t[NUMBERS], e[ELEMENTS];
    uint8_t b[BYTES];
    sxf_written made = written(2017, table, LENGTH), small = written(2017, table, LENGTH - 1), no_year = written(2018, table, LENGTH);
    SAME(made, 0, 0, 0, LENGTH);
    SAME(small, SXF_ROOM, 0, 0, 0);
    SAME(no_year, SXF_ASK, 0, 0, 0);
    uint64_t sum = sum_of(sheet, LENGTH);
    sxf_checked checked = sxf_check(sheet, LENGTH, 2017), cut = sxf_check(sheet, 451, 2017), none = sxf_check(sheet, 0, 2017);
    SAME(checked, 0, 0, 0, sum, 1, NUMBERS, ELEMENTS, BYTES);
    SAME(cut, SXF_SHORT, 0, 0, 0, 0, 0, 0, 0);
    SAME(none, SXF_SHORT, 0, 0, 0, 0, 0, 0, 0);
    sxf_checked unfolded = sxf_unfold(sheet, LENGTH, 2017, t, NUMBERS, e, ELEMENTS, b, BYTES);
    SAME(unfolded, 0, 0, 0, sum, 1, NUMBERS, ELEMENTS, BYTES);
    same("table", t, table, NUMBERS);
    same("elements", e, elements, ELEMENTS);
    uint64_t pool[BYTES] = { b[0], b[1], b[2] };
    SAME(pool, 0xF9, 0x04, 0x07);
    sxf_checked tight = sxf_unfold(sheet, LENGTH, 2017, t, NUMBERS, e, ELEMENTS, b, BYTES - 1);
    SAME(tight, SXF_ROOM, 3, 0, 0, 0, 0, 0, 0);
}

static void records(void)
{
    uint64_t multi[NUMBERS];
    sxf_record first = sxf_record_at(sheet, LENGTH, 1999, 0), second = sxf_record_at(sheet, LENGTH, 1999, 1);
    sxf_record far = sxf_record_at(sheet, LENGTH, 1999, UINT64_C(1) << 32), last = sxf_record_at(sheet, LENGTH, 1999, UINT64_MAX);
    SAME(first, 0, 0, 0, SXF_RECORDS_AT, TOTAL, 9, 10, 11, 0x0202, 0x24, 12, 3, 2, 0, 4);
    /* the same by the names of its fields */
    uint64_t row[SXF_ROW_WIDTH] = { first.code, first.in_group, first.group, first.reference, first.generalisation, first.word, first.parts,
                                    first.items, first.mark };
    uint64_t beside[] = { first.at, first.total, first.points };
    same("row", row, table, SXF_ROW_WIDTH);
    SAME(beside, SXF_RECORDS_AT, TOTAL, 4);
    SAME(second, SXF_ASK, 0, 0, 0, 0, 0, 0, 0, 0, 0, 0, 0, 0, 0, 0);
    SAME(far, SXF_ASK, 0, 0, 0, 0, 0, 0, 0, 0, 0, 0, 0, 0, 0, 0);
    SAME(last, SXF_ASK, 0, 0, 0, 0, 0, 0, 0, 0, 0, 0, 0, 0, 0, 0);
    memcpy(multi, table, sizeof multi);
    multi[SXF_ROW_REFERENCE] |= 16;
    sxf_written early = written(2015, multi, LENGTH), made = written(2016, multi, LENGTH);
    SAME(early, SXF_TOO_NEW, SXF_ROW_REFERENCE, 2016, 0);
    SAME(made, 0, 0, 0, LENGTH);
    sxf_record new_bit = sxf_record_at(sheet, LENGTH, 2015, UINT64_MAX);
    SAME(new_bit, SXF_TOO_NEW, 472, 2016, 0, 0, 0, 0, 0, 0, 0, 0, 0, 0, 0, 0);
}

/* The same record under the mark, where the word is the first part's points. */
static void marks(void)
{
    uint64_t marked[NUMBERS], t[NUMBERS], e[ELEMENTS];
    uint8_t b[BYTES];
    memcpy(marked, table, sizeof marked);
    marked[SXF_ROW_MARK] = 1;
    sxf_written other_word = written(2017, marked, LENGTH);
    SAME(other_word, SXF_COUNT, SXF_ROW_WIDTH, 0, 0);
    marked[SXF_ROW_WORD] = 4;
    sxf_written early = written(1999, marked, LENGTH), made = written(2004, marked, LENGTH);
    SAME(early, SXF_TOO_NEW, SXF_ROW_MARK, 2004, 0);
    SAME(made, 0, 0, 0, LENGTH);
    sxf_record first = sxf_record_at(sheet, LENGTH, 2004, 0), too_new = sxf_record_at(sheet, LENGTH, 1999, 0);
    SAME(first, 0, 0, 0, SXF_RECORDS_AT, TOTAL, 9, 10, 11, 0x0202, 0x24, 4, 3, 2, 1, 4);
    SAME(too_new, SXF_TOO_NEW, 482, 2004, 0, 0, 0, 0, 0, 0, 0, 0, 0, 0, 0, 0);
    sxf_checked unfolded = sxf_unfold(sheet, LENGTH, 2004, t, NUMBERS, e, ELEMENTS, b, BYTES);
    SAME(unfolded, 0, 0, 0, sum_of(sheet, LENGTH), 1, NUMBERS, ELEMENTS, BYTES);
    same("marked", t, marked, NUMBERS);
    marked[SXF_ROW_MARK] = 2;
    sxf_written no_mark = written(2017, marked, LENGTH);
    SAME(no_mark, SXF_TABLE, SXF_ROW_MARK, 0, 0);
}

/* An old letter in the last byte of each text field in turn: that field alone is not clean, and lengths and scale are as before. With no zero at
   all the field is refused. */
static void tails(void)
{
    static const size_t at[] = { SXF_DATE_AT, SXF_DESIGNATION_AT, SXF_TITLE_AT, SXF_DESIGNATION2_AT };
    static const size_t size[] = { SXF_DATE_SIZE, SXF_TEXT_SIZE, SXF_TEXT_SIZE, SXF_TEXT_SIZE };
    for (size_t i = 0; i < 4; i++) {
        sxf_written made = written(2017, table, LENGTH);
        SAME(made, 0, 0, 0, LENGTH);
        sheet[at[i] + size[i] - 1] = 'z';
        put_sum_right(sheet, LENGTH);
        sxf_head dirty = sxf_head_of(sheet, LENGTH, 2017);
        SAME(dirty, 0, 0, 0, 1, 2, 3, 4, 5, i != 0, i != 1, i != 2, i != 3);
        /* the same by the names of its fields */
        uint64_t clean[] = { dirty.date_clean, dirty.designation_clean, dirty.title_clean, dirty.designation2_clean };
        SAME(clean, i != 0, i != 1, i != 2, i != 3);
        memset(sheet + at[i], 'z', size[i]);
        put_sum_right(sheet, LENGTH);
        sxf_head no_zero = sxf_head_of(sheet, LENGTH, 2017);
        SAME(no_zero, SXF_TEXT, at[i], 0, 0, 0, 0, 0, 0, 0, 0, 0, 0);
    }
    sxf_written again = written(2017, table, LENGTH);
    SAME(again, 0, 0, 0, LENGTH);
}

static void heads(void)
{
    sxf_head head = sxf_head_of(sheet, LENGTH, 2017), no_year = sxf_head_of(sheet, LENGTH, 2005);
    SAME(head, 0, 0, 0, 1, 2, 3, 4, 5, 1, 1, 1, 1);
    SAME(no_year, SXF_ASK, 0, 0, 0, 0, 0, 0, 0, 0, 0, 0, 0);
    sxf_unit points = sxf_unit_of(sheet, LENGTH, 2017), cut = sxf_unit_of(sheet, 451, 2017);
    SAME(points, 0, 0, 0, SXF_DEVICE_POINTS, 0);
    SAME(cut, SXF_SHORT, 0, 0, 0, 0);
    sxf_corners corners = sxf_corners_of(sheet, LENGTH, 2017), no_corners = sxf_corners_of(sheet, LENGTH, 2005);
    SAME(corners, 0, 0, 0, 0, 1, 2, 3, 4, 5, 6, 7, 8);
    SAME(no_corners, SXF_ASK, 0, 0, 0, 0, 0, 0, 0, 0, 0, 0, 0);
    /* a real sheet of a unit that has no name, and a NaN for the fifth corner */
    rest[0] = 0x1B;
    rest[236 - 96] = 7;
    rest[136 - 96 + 6] = 0xF8;
    rest[136 - 96 + 7] = 0x7F;
    sxf_written made = written(2017, table, LENGTH);
    SAME(made, 0, 0, 0, LENGTH);
    sxf_unit unknown = sxf_unit_of(sheet, LENGTH, 2017);
    SAME(unknown, 0, 0, 0, SXF_UNKNOWN_UNIT, 7);
    sxf_corners nan = sxf_corners_of(sheet, LENGTH, 2017);
    SAME(nan, 0, 0, 0, 136, 1, 2, 3, 4, UINT64_C(0x7FF8000000000005), 6, 7, 8);
    uint64_t one = sxf_double(ONE) == 1.0;
    SAME(one, 1);
}

static void meanings(void)
{
    sxf_visibility table4 = sxf_visibility_of(0x03, 0x24), table5 = sxf_visibility_of(0x83, 0x24), unset = sxf_visibility_of(0x03, 0xFF);
    SAME(table4, 1, 10000, 10000000);
    SAME(table5, 1, 100, 100000);
    SAME(unset, 0, 0, 0);
    sxf_value metres = sxf_value_of(2, 0xFF, 0x04F9), below = sxf_value_of(4, 127, 0xFFFFFFFF), text = sxf_value_of(0, 1, 65);
    sxf_value wide = sxf_value_of(2, 0, UINT64_C(0x123456789ABC0001)), one = sxf_value_of(8, 0x80, ONE), nan = sxf_value_of(8, 0, SIGNALLING);
    sxf_value no_scale = sxf_value_of(1, 0x80, 0), no_type = sxf_value_of(3, 0x80, 0);
    SAME(metres, 0, 0, 0, SXF_DECIMAL, 0, 1273, (uint64_t)-1);
    SAME(below, 0, 0, 0, SXF_DECIMAL, 0, (uint64_t)-1, 127);
    SAME(wide, 0, 0, 0, SXF_DECIMAL, 0, 1, 0);
    SAME(one, 0, 0, 0, SXF_DOUBLE, ONE, 0, 0);
    SAME(nan, 0, 0, 0, SXF_NAN, SIGNALLING, 0, 0);
    SAME(text, 0, 0, 0, SXF_NO_NUMBER, 0, 0, 0);
    SAME(no_scale, SXF_SEMANTIC, 3, 0, 0, 0, 0, 0);
    SAME(no_type, SXF_SEMANTIC, 2, 0, 0, 0, 0, 0);
}

/* An element and its unit, or why there is none. */
static void print_coordinate(const char *what, sxf_coordinate c)
{
    static const char *const units[] = { "", "device points", "metres", "radians", "degrees", "unknown unit" };
    printf("%s: ", what);
    if (c.number != SXF_OK)
        printf("refused, %" PRIu64 " at %" PRIu64 "\n", c.number, c.place);
    else if (c.kind == SXF_NAN)
        printf("NaN 0x%" PRIx64 ", %" PRIu64 " bytes, in %s\n", c.bits, c.width, units[c.unit]);
    else
        printf("%.17g, %" PRIu64 " bytes, in %s\n", sxf_double(c.bits), c.width, units[c.unit]);
}

static void coordinates(void)
{
    /* the reference bits of large elements, of three dimensions and of floating ones; and two sheets: in device points, and real, in metres */
    enum { LARGE = 0x000400, SPACE = 0x020000, FLOATING = 0x040000 };
    uint8_t still[304] = { 3 }, real[304] = { 0x1B };
    sxf_coordinate small = sxf_coordinate_of(still, 0, SXF_NORTH, 65535), minus = sxf_coordinate_of(real, LARGE, SXF_EAST, 0xFFFFFFFF);
    SAME(small, 0, 0, 0, SXF_DEVICE_POINTS, 0, 2, SXF_WHOLE, UINT64_C(0x40EFFFE000000000));
    SAME(minus, 0, 0, 0, SXF_METRES, 0, 4, SXF_WHOLE, UINT64_C(0xBFF0000000000000));
    /* heights are in metres by their own byte, also where the plane is in device points, and of unknown unit by any other */
    sxf_coordinate height = sxf_coordinate_of(still, SPACE, SXF_HEIGHT, 0x42FF0000);
    real[236 - 96] = 65;
    real[237 - 96] = 9;
    sxf_coordinate north = sxf_coordinate_of(real, LARGE | SPACE | FLOATING, SXF_NORTH, ONE);
    sxf_coordinate unknown = sxf_coordinate_of(real, LARGE | SPACE | FLOATING, SXF_HEIGHT, ONE);
    SAME(height, 0, 0, 0, SXF_METRES, 0, 4, SXF_SINGLE, UINT64_C(0x405FE00000000000));
    SAME(north, 0, 0, 0, SXF_DEGREES, 0, 8, SXF_DOUBLE, ONE);
    SAME(unknown, 0, 0, 0, SXF_UNKNOWN_UNIT, 9, 8, SXF_DOUBLE, ONE);
    sxf_coordinate nan = sxf_coordinate_of(still, FLOATING, SXF_EAST, 0x7F800001);
    SAME(nan, 0, 0, 0, SXF_DEVICE_POINTS, 0, 4, SXF_NAN, 0x7F800001);
    sxf_coordinate flat = sxf_coordinate_of(still, 0, SXF_HEIGHT, 0), fourth = sxf_coordinate_of(still, SPACE, 3, 0);
    sxf_coordinate too_wide = sxf_coordinate_of(still, 0, SXF_NORTH, 65536), four_bytes = sxf_coordinate_of(still, UINT32_C(1) << 24, SXF_NORTH, 0);
    SAME(flat, SXF_ASK, 0, 0, 0, 0, 0, 0, 0);
    SAME(fourth, SXF_ASK, 0, 0, 0, 0, 0, 0, 0);
    SAME(too_wide, SXF_TABLE, 0, 0, 0, 0, 0, 0, 0);
    SAME(four_bytes, SXF_TABLE, 3, 0, 0, 0, 0, 0, 0);
    print_coordinate("a short 65535", small);
    print_coordinate("a long of all ones", minus);
    print_coordinate("a height", height);
    print_coordinate("another sheet's north", north);
    print_coordinate("its height", unknown);
    print_coordinate("a NaN", nan);
    print_coordinate("a height in two dimensions", flat);
    print_coordinate("a short 65536", too_wide);
}

/* The word for gas in the three codings, and in UTF-16. The output is one longer: what is past the length is as it was. */
static void texts(void)
{
    static const uint8_t gas[3][3] = { { 0x83, 0xA0, 0xA7 }, { 0xC3, 0xE0, 0xE7 }, { 0xE7, 0xC1, 0xDA } };
    for (uint32_t coding = SXF_DOS; coding <= SXF_KOI8; coding++) {
        uint16_t units[4] = { 9, 9, 9, 9 };
        uint8_t text[4] = { 9, 9, 9, 9 };
        sxf_written there = sxf_to_utf16(coding, gas[coding], 3, units, 4), back = sxf_from_utf16(coding, units, 3, text, 4);
        SAME(there, 0, 0, 0, 3);
        SAME(back, 0, 0, 0, 3);
        uint64_t turned[4] = { units[0], units[1], units[2], units[3] }, again[4] = { text[0], text[1], text[2], text[3] };
        SAME(turned, 0x0413, 0x0430, 0x0437, 9);
        SAME(again, gas[coding][0], gas[coding][1], gas[coding][2], 9);
    }
    static const uint8_t none[] = { 'a', 0x98 };
    static const uint16_t pair[] = { 'a', 0xD83D, 0xDE00 };
    uint16_t units[2] = { 9, 9 };
    uint8_t text[2] = { 9, 9 };
    sxf_written no_coding = sxf_to_utf16(3, none, 2, units, 0), no_character = sxf_to_utf16(SXF_WINDOWS, none, 2, units, 1);
    sxf_written no_byte = sxf_from_utf16(SXF_KOI8, pair, 3, text, 0), no_room = sxf_from_utf16(SXF_KOI8, pair, 1, text, 0);
    SAME(no_coding, SXF_ASK, 0, 0, 0);
    SAME(no_character, SXF_NO_CHARACTER, 1, 0, 0);
    SAME(no_byte, SXF_NO_CHARACTER, 1, 0, 0);
    SAME(no_room, SXF_ROOM, 0, 0, 0);
    uint64_t left[4] = { units[0], units[1], text[0], text[1] };
    SAME(left, 9, 9, 9, 9);
}

/* Where a block of an index has the two bytes of its kind, and its sum. */
enum {
    KIND_AT = 508,
    SUM_AT = 510
};

/* The index of the sheet's one record, and of none. What is lent is longer: what is past the length is as it was. */
static void one_block(void)
{
    static uint8_t index[SXF_BLOCK_SIZE + 1];
    uint64_t entry[SXF_ENTRY_WIDTH + 1] = { 99, 99, 99, 99 }, pick[SXF_PICK_WIDTH + 1] = { 99, 99, 99, 99 }, none[1] = { 99 };
    /* its number, one entry: code 9, place 452, localisation 2; then zeros, its kind, the sum of the bytes before it, and what was there */
    static const uint8_t block[SXF_BLOCK_SIZE + 1] = {
        0, 0, 1, 0, 9, 0, 0, 0, 0xC4, 0x01, 0, 0, 2, [KIND_AT] = 1, [SUM_AT] = 0xD2, [SXF_BLOCK_SIZE] = 99,
    };
    memset(index, 99, sizeof index);
    sxf_written built = sxf_index_build(sheet, LENGTH, 2017, index, sizeof index);
    SAME(built, 0, 0, 0, SXF_BLOCK_SIZE);
    uint64_t differ = memcmp(index, block, sizeof index) != 0;
    SAME(differ, 0);
    sxf_index checked = sxf_index_check(index, SXF_BLOCK_SIZE), empty = sxf_index_check(index, 0);
    SAME(checked, 0, 0, 0, 1, 1);
    SAME(empty, 0, 0, 0, 0, 0);
    /* the same by the names of its fields */
    uint64_t counts[] = { checked.entries, checked.blocks };
    SAME(counts, 1, 1);
    sxf_written read = sxf_index_read(index, SXF_BLOCK_SIZE, entry, SXF_ENTRY_WIDTH + 1), no_entries = sxf_index_read(index, 0, none, 0);
    SAME(read, 0, 0, 0, SXF_ENTRY_WIDTH);
    SAME(entry, 9, SXF_RECORDS_AT, 2, 99);
    SAME(no_entries, 0, 0, 0, 0);
    sxf_written selected = sxf_index_select(index, SXF_BLOCK_SIZE, 9, pick, SXF_PICK_WIDTH + 1);
    SAME(selected, 0, 0, 0, SXF_PICK_WIDTH);
    SAME(pick, 0, SXF_RECORDS_AT, 2, 99);
    sxf_written no_hit = sxf_index_select(index, SXF_BLOCK_SIZE, 8, none, 0), not_there = sxf_select(sheet, LENGTH, 2017, 8, none, 0);
    SAME(no_hit, 0, 0, 0, 0);
    SAME(not_there, 0, 0, 0, 0);
    SAME(none, 99);
}

/* One record more than a block holds, none of which has a point. The last has a code of its own, the others 0, 1 and 2 in turn. */
enum {
    MANY = SXF_BLOCK_FULL + 1,
    MANY_TOTAL = 32,
    MANY_LENGTH = SXF_RECORDS_AT + MANY * MANY_TOTAL,
    LAST_AT = MANY_LENGTH - MANY_TOTAL,
    LAST_CODE = 7,
    BLOCKS = 2 * SXF_BLOCK_SIZE
};

static uint8_t many[MANY_LENGTH];

static sxf_written written_many(void)
{
    static uint64_t rows[MANY][SXF_ROW_WIDTH + SXF_PART_WIDTH];
    for (size_t i = 0; i < MANY; i++) {
        rows[i][SXF_ROW_CODE] = i == MANY - 1 ? LAST_CODE : i % 3;
        rows[i][SXF_ROW_REFERENCE] = (i + 1) % 2;
        rows[i][SXF_ROW_PARTS] = 1;
    }
    return sxf_write(2017, bytes, 0, bytes, 0, 5, bytes, 0, rest, bytes, 0, carried, rows[0], MANY * (SXF_ROW_WIDTH + SXF_PART_WIDTH), elements, 0,
                     bytes, 0, many, MANY_LENGTH);
}

/* Two blocks: both ways of selecting give the same, the first block that is bad is told, and a refusal writes nothing. */
static void two_blocks(void)
{
    static uint8_t index[BLOCKS];
    static uint64_t entries[MANY * SXF_ENTRY_WIDTH];
    uint64_t pick[SXF_PICK_WIDTH] = { 99, 99, 99 };
    sxf_written made = written_many();
    SAME(made, 0, 0, 0, MANY_LENGTH);
    uint64_t lengths[] = { SXF_INDEX_LENGTH(0), SXF_INDEX_LENGTH(1), SXF_INDEX_LENGTH(SXF_BLOCK_FULL), SXF_INDEX_LENGTH(MANY),
                           SXF_INDEX_LENGTH(SXF_LIMIT / 32) };
    SAME(lengths, 0, SXF_BLOCK_SIZE, SXF_BLOCK_SIZE, BLOCKS, 19174400);
    memset(index, 99, sizeof index);
    sxf_written small = sxf_index_build(many, MANY_LENGTH, 2017, index, BLOCKS - 1);
    sxf_written no_year = sxf_index_build(many, MANY_LENGTH, 2018, index, BLOCKS), cut = sxf_index_build(many, MANY_LENGTH - 1, 2017, index, 0);
    SAME(small, SXF_ROOM, 0, 0, 0);
    SAME(no_year, SXF_ASK, 0, 0, 0);
    SAME(cut, SXF_SHORT, LAST_AT, 0, 0);
    uint64_t left[] = { index[0], index[SXF_BLOCK_SIZE], index[BLOCKS - 1] };
    SAME(left, 99, 99, 99);
    sxf_written built = sxf_index_build(many, MANY_LENGTH, 2017, index, BLOCKS);
    SAME(built, 0, 0, 0, BLOCKS);
    sxf_index checked = sxf_index_check(index, BLOCKS);
    SAME(checked, 0, 0, 0, MANY, 2);
    sxf_written read = sxf_index_read(index, BLOCKS, entries, MANY * SXF_ENTRY_WIDTH);
    SAME(read, 0, 0, 0, MANY * SXF_ENTRY_WIDTH);
    same("last entry", entries + (MANY - 1) * SXF_ENTRY_WIDTH, (const uint64_t[]){ LAST_CODE, LAST_AT, 1 }, SXF_ENTRY_WIDTH);
    sxf_written narrow = sxf_index_read(index, BLOCKS, pick, SXF_PICK_WIDTH), crowd = sxf_index_select(index, BLOCKS, 0, pick, SXF_PICK_WIDTH);
    sxf_written crowded = sxf_select(many, MANY_LENGTH, 2017, 0, pick, SXF_PICK_WIDTH);
    sxf_written ask = sxf_select(many, MANY_LENGTH, 2018, LAST_CODE, pick, SXF_PICK_WIDTH);
    SAME(narrow, SXF_ROOM, 0, 0, 0);
    SAME(crowd, SXF_ROOM, 0, 0, 0);
    SAME(crowded, SXF_ROOM, 0, 0, 0);
    SAME(ask, SXF_ASK, 0, 0, 0);
    SAME(pick, 99, 99, 99);
    sxf_written by_index = sxf_index_select(index, BLOCKS, LAST_CODE, pick, SXF_PICK_WIDTH);
    SAME(by_index, 0, 0, 0, SXF_PICK_WIDTH);
    SAME(pick, MANY - 1, LAST_AT, 1);
    memset(pick, 0, sizeof pick);
    sxf_written by_sheet = sxf_select(many, MANY_LENGTH, 2017, LAST_CODE, pick, SXF_PICK_WIDTH);
    SAME(by_sheet, 0, 0, 0, SXF_PICK_WIDTH);
    SAME(pick, MANY - 1, LAST_AT, 1);
    /* a piece of the second block, and one of the first; then the second with a byte changed, which is told before what has no room */
    sxf_index piece = sxf_index_check(index, BLOCKS - 1), first_piece = sxf_index_check(index, SXF_BLOCK_SIZE - 1);
    SAME(piece, SXF_BAD_BLOCK, SXF_BLOCK_SIZE, 0, 0, 0);
    SAME(first_piece, SXF_BAD_BLOCK, 0, 0, 0, 0);
    index[BLOCKS - 3] = 1;
    sxf_written unread = sxf_index_read(index, BLOCKS, pick, 0), unselected = sxf_index_select(index, BLOCKS, LAST_CODE, pick, 0);
    SAME(unread, SXF_BAD_BLOCK, SXF_BLOCK_SIZE, 0, 0);
    SAME(unselected, SXF_BAD_BLOCK, SXF_BLOCK_SIZE, 0, 0);
}

/* How many entries a full block of an old index file has, and how many bytes an entry. */
enum {
    OLD_FULL = 63,
    OLD_ENTRY = 8
};

/* Puts into a block its number, its count of entries, the first byte of its kind, and its sum. */
static void put_block(uint8_t *block, uint8_t number, uint8_t count, uint8_t kind)
{
    uint64_t sum = 0;
    block[0] = number;
    block[2] = count;
    block[KIND_AT] = kind;
    for (size_t i = 0; i < SUM_AT; i++)
        sum += block[i];
    block[SUM_AT] = (uint8_t)sum;
    block[SUM_AT + 1] = (uint8_t)(sum >> 8);
}

/* An old index file is read: a full block, whose last entry has code 7, the place 0x030201 and localisation 1, and a block of one entry. A later block
   of the new kind is bad, and a first one of no kind. */
static void old_blocks(void)
{
    static uint8_t index[BLOCKS];
    static uint64_t entries[(OLD_FULL + 1) * SXF_ENTRY_WIDTH];
    static const uint8_t last[OLD_ENTRY] = { LAST_CODE, 0, 0, 0, 0x01, 0x02, 0x03, 1 };
    uint64_t pick[SXF_PICK_WIDTH];
    memcpy(index + 4 + OLD_ENTRY * (OLD_FULL - 1), last, OLD_ENTRY);
    put_block(index, 0, OLD_FULL, 0);
    put_block(index + SXF_BLOCK_SIZE, 1, 1, 0);
    sxf_index checked = sxf_index_check(index, BLOCKS);
    SAME(checked, 0, 0, 0, OLD_FULL + 1, 2);
    sxf_written read = sxf_index_read(index, BLOCKS, entries, (OLD_FULL + 1) * SXF_ENTRY_WIDTH);
    SAME(read, 0, 0, 0, (OLD_FULL + 1) * SXF_ENTRY_WIDTH);
    same("old entry", entries + (OLD_FULL - 1) * SXF_ENTRY_WIDTH, (const uint64_t[]){ LAST_CODE, 0x030201, 1 }, SXF_ENTRY_WIDTH);
    sxf_written selected = sxf_index_select(index, BLOCKS, LAST_CODE, pick, SXF_PICK_WIDTH);
    SAME(selected, 0, 0, 0, SXF_PICK_WIDTH);
    SAME(pick, OLD_FULL - 1, 0x030201, 1);
    put_block(index + SXF_BLOCK_SIZE, 1, 1, 1);
    sxf_index mixed = sxf_index_check(index, BLOCKS);
    SAME(mixed, SXF_BAD_BLOCK, SXF_BLOCK_SIZE, 0, 0, 0);
    put_block(index, 0, OLD_FULL, 2);
    sxf_index no_kind = sxf_index_check(index, BLOCKS);
    SAME(no_kind, SXF_BAD_BLOCK, 0, 0, 0, 0);
}

/* Places that sxf.h does not name: the descriptor's identifier, its count of records, and a total length, counted from its record's start. */
enum {
    DESCRIPTOR_AT = 400,
    COUNT_AT = 440,
    TOTAL_AT = 4
};

/* Of the sheet of many records the first with a code, from header to header, and its frame. The sheet is not checked: once its frame's code is
   changed its sum is wrong, and all is found as before. */
static void hops(void)
{
    sxf_hop first = sxf_first_with(many, MANY_LENGTH, 0), third = sxf_first_with(many, MANY_LENGTH, 2);
    sxf_hop last = sxf_first_with(many, MANY_LENGTH, LAST_CODE), none = sxf_first_with(many, MANY_LENGTH, 3);
    SAME(first, 0, 0, 0, 1, 0, SXF_RECORDS_AT, MANY_TOTAL, 1);
    SAME(third, 0, 0, 0, 1, 2, SXF_RECORDS_AT + 2 * MANY_TOTAL, MANY_TOTAL, 3);
    SAME(last, 0, 0, 0, 1, MANY - 1, LAST_AT, MANY_TOTAL, MANY);
    SAME(none, 0, 0, 0, 0, 0, 0, 0, MANY);
    /* the same by the names of its fields */
    uint64_t named[] = { last.found, last.record, last.at, last.total, last.looked };
    SAME(named, 1, MANY - 1, LAST_AT, MANY_TOTAL, MANY);
    /* the frame's code is 0, which the first record has; then the last record's, and then one that differs from it in the highest byte */
    sxf_hop frame_0 = sxf_frame_of(many, MANY_LENGTH);
    SAME(frame_0, 0, 0, 0, 1, 0, SXF_RECORDS_AT, MANY_TOTAL, 1);
    many[SXF_FRAME_AT] = LAST_CODE;
    sxf_checked changed = sxf_check(many, MANY_LENGTH, 2017);
    SAME(changed, SXF_SUM, 12, 0, 0, 0, 0, 0, 0);
    sxf_hop frame = sxf_frame_of(many, MANY_LENGTH);
    SAME(frame, 0, 0, 0, 1, MANY - 1, LAST_AT, MANY_TOTAL, MANY);
    many[SXF_FRAME_AT + 3] = 1;
    sxf_hop no_frame = sxf_frame_of(many, MANY_LENGTH);
    SAME(no_frame, 0, 0, 0, 0, 0, 0, 0, MANY);
}

/* What hopping refuses: first of the sheet, then of the headers, in their order, before their codes are looked at. */
static void refused_hops(void)
{
    static uint8_t over[SXF_LIMIT + 1];
    sxf_hop too_long = sxf_first_with(over, SXF_LIMIT + 1, 0), other = sxf_frame_of(over, SXF_LIMIT);
    sxf_hop too_short = sxf_first_with(many, SXF_RECORDS_AT - 1, 0), no_bytes = sxf_frame_of(many, 0);
    SAME(too_long, SXF_TOO_LONG, 0, 0, 0, 0, 0, 0, 0);
    SAME(other, SXF_NOT_SXF, 0, 0, 0, 0, 0, 0, 0);
    SAME(too_short, SXF_SHORT, 0, 0, 0, 0, 0, 0, 0);
    SAME(no_bytes, SXF_SHORT, 0, 0, 0, 0, 0, 0, 0);
    many[DESCRIPTOR_AT] ^= 1;
    sxf_hop descriptor = sxf_first_with(many, MANY_LENGTH, 0);
    SAME(descriptor, SXF_NOT_SXF, DESCRIPTOR_AT, 0, 0, 0, 0, 0, 0);
    many[DESCRIPTOR_AT] ^= 1;
    /* the last header: too few bytes for it; a total length of 33 where 32 bytes are left; one of 31; another identifier, which comes before that */
    sxf_hop cut = sxf_first_with(many, MANY_LENGTH - 1, LAST_CODE);
    SAME(cut, SXF_SHORT, LAST_AT, 0, 0, 0, 0, 0, 0);
    many[LAST_AT + TOTAL_AT] = MANY_TOTAL + 1;
    sxf_hop past_end = sxf_first_with(many, MANY_LENGTH, LAST_CODE);
    SAME(past_end, SXF_SHORT, LAST_AT + TOTAL_AT, 0, 0, 0, 0, 0, 0);
    many[LAST_AT + TOTAL_AT] = MANY_TOTAL - 1;
    sxf_hop small = sxf_first_with(many, MANY_LENGTH, LAST_CODE), before = sxf_first_with(many, MANY_LENGTH, 2);
    SAME(small, SXF_LENGTH, LAST_AT + TOTAL_AT, 0, 0, 0, 0, 0, 0);
    SAME(before, 0, 0, 0, 1, 2, SXF_RECORDS_AT + 2 * MANY_TOTAL, MANY_TOTAL, 3);
    many[LAST_AT] ^= 1;
    sxf_hop no_record = sxf_first_with(many, MANY_LENGTH, LAST_CODE);
    SAME(no_record, SXF_NOT_SXF, LAST_AT, 0, 0, 0, 0, 0, 0);
    /* as many records as four bytes can count: the headers end before them, where the sheet does */
    many[LAST_AT] ^= 1;
    many[LAST_AT + TOTAL_AT] = MANY_TOTAL;
    memset(many + COUNT_AT, 0xFF, 4);
    sxf_hop counted = sxf_first_with(many, MANY_LENGTH, LAST_CODE), uncounted = sxf_first_with(many, MANY_LENGTH, 3);
    SAME(counted, 0, 0, 0, 1, MANY - 1, LAST_AT, MANY_TOTAL, MANY);
    SAME(uncounted, SXF_SHORT, MANY_LENGTH, 0, 0, 0, 0, 0, 0);
}

int main(void)
{
    rest[0] = 3;
    for (size_t i = 0; i < 8; i++)
        rest[104 - 96 + 8 * i] = (uint8_t)(i + 1);
    uint64_t version = sxf_version();
    SAME(version, SXF_VERSION);
    sheets();
    records();
    marks();
    tails();
    heads();
    meanings();
    coordinates();
    texts();
    one_block();
    two_blocks();
    old_blocks();
    hops();
    refused_hops();
    printf("calls: %d answers, %d not as stated\n", answers, wrong);
    return wrong != 0;
}

/*
 * list FILE COPY: lists the sheet in FILE, writes it back from its head and its record table to COPY, and compares the two. The tails of its
 * text fields are cleared in COPY, and its sum is that of the bytes that it has.
 *
 * It prints the lines of the program `listing`: length, sum and count of records, then for each record its number, place, total length,
 * code, number in group, group number, localisation, points of its first part and items; or REFUSED and the refusal. Between these stand
 * indented lines: the unit, each text field whose tail is not clean, the mark of a record that has it, and for each item its code, its type and
 * its value. FILE may be as long as the library takes, where `listing` stops at 65,536 bytes.
 *
 * Exit status: 0 listed and written back; 1 the sheet is refused, or COPY differs; 2 anything else, said on standard error.
 */
#include <errno.h>
#include <inttypes.h>
#include <stdio.h>
#include <stdlib.h>
#include <string.h>
#include "sxf.h"

enum { LISTED = 0, REFUSED = 1, FAILED = 2 };

static const uint32_t YEAR = 2017;

/* A sheet's bytes, its head, and its record table unfolded. */
typedef struct {
    uint8_t *sheet;
    size_t length;
    sxf_checked sizes;
    sxf_head head;
    uint64_t *table, *elements;
    uint8_t *bytes;
} opened;

static int failed(const char *what, const char *why)
{
    fprintf(stderr, "list: %s: %s\n", what, why);
    return FAILED;
}

/* As listing says it on standard output, and in words on standard error. */
static int refused(const char *what, uint64_t number, uint64_t place, uint64_t year)
{
    static const char *const names[] = {
        "", "TOO LONG", "SHORT", "NOT SXF", "EDITION", "SUM", "TEXT", "RESERVED", "TOO NEW", "NOT CARRIED", "LENGTH", "COUNT", "SEMANTIC",
        "LEFT OVER", "TABLE", "ROOM", "ASK",
    };
    printf("REFUSED %" PRIu64 " %" PRIu64 " %" PRIu64 "\n", number, place, year);
    fprintf(stderr, "list: %s: refused: %s at %" PRIu64, what, number <= SXF_ASK ? names[number] : "?", place);
    if (number == SXF_TOO_NEW)
        fprintf(stderr, ", of %" PRIu64, year);
    fputc('\n', stderr);
    return REFUSED;
}

/* Memory for count elements of a size. It is never null on success, since a lent pointer is never null. */
static void *room(uint64_t count, size_t size)
{
    return calloc(count == 0 ? 1 : (size_t)count, size);
}

/* Reads a file to its end, or to one byte over the limit, which the library then refuses. */
static int read_file(const char *path, opened *o)
{
    size_t most = (size_t)SXF_LIMIT + 1;
    FILE *f = fopen(path, "rb");
    if (f == NULL)
        return failed(path, strerror(errno));
    o->sheet = room(most, 1);
    if (o->sheet == NULL) {
        fclose(f);
        return failed(path, "out of memory");
    }
    o->length = fread(o->sheet, 1, most, f);
    int status = ferror(f) ? failed(path, strerror(errno)) : LISTED;
    fclose(f);
    return status;
}

/* Checks the sheet to learn how much room its table takes, unfolds it, and asks for its head. */
static int unfold(const char *path, opened *o)
{
    o->sizes = sxf_check(o->sheet, o->length, YEAR);
    if (o->sizes.number != SXF_OK)
        return refused(path, o->sizes.number, o->sizes.place, o->sizes.year);
    o->table = room(o->sizes.numbers, sizeof *o->table);
    o->elements = room(o->sizes.elements, sizeof *o->elements);
    o->bytes = room(o->sizes.bytes, 1);
    if (o->table == NULL || o->elements == NULL || o->bytes == NULL)
        return failed(path, "out of memory");
    sxf_checked c = sxf_unfold(o->sheet, o->length, YEAR, o->table, o->sizes.numbers, o->elements, o->sizes.elements, o->bytes, o->sizes.bytes);
    if (c.number != SXF_OK)
        return refused(path, c.number, c.place, c.year);
    o->head = sxf_head_of(o->sheet, o->length, YEAR);
    return o->head.number == SXF_OK ? LISTED : refused(path, o->head.number, o->head.place, o->head.year);
}

/* A number of up to eight bytes, lowest first. */
static uint64_t number_of(const uint8_t *bytes, size_t width)
{
    uint64_t n = 0;
    for (size_t i = width; i > 0; i--)
        n = n << 8 | bytes[i - 1];
    return n;
}

static int print_unit(const char *path, const opened *o)
{
    static const char *const names[] = { "", "device points", "metres", "radians", "degrees" };
    sxf_unit u = sxf_unit_of(o->sheet, o->length, YEAR);
    if (u.number != SXF_OK)
        return refused(path, u.number, u.place, u.year);
    if (u.unit == SXF_UNKNOWN_UNIT)
        printf("  unit unknown: %" PRIu64 "\n", u.byte);
    else
        printf("  unit %s\n", names[u.unit]);
    return LISTED;
}

/* A text field: where it stands, how many bytes it has, the length of its text, and whether its tail is clean. */
typedef struct {
    const char *name;
    size_t at, size;
    uint64_t length, clean;
} text_field;

enum { TEXT_FIELDS = 4 };

static void fields_of(const sxf_head *h, text_field fields[TEXT_FIELDS])
{
    const text_field all[TEXT_FIELDS] = {
        { "date", SXF_DATE_AT, SXF_DATE_SIZE, h->date, h->date_clean },
        { "designation", SXF_DESIGNATION_AT, SXF_TEXT_SIZE, h->designation, h->designation_clean },
        { "title", SXF_TITLE_AT, SXF_TEXT_SIZE, h->title, h->title_clean },
        { "designation2", SXF_DESIGNATION2_AT, SXF_TEXT_SIZE, h->designation2, h->designation2_clean },
    };
    memcpy(fields, all, sizeof all);
}

static void print_tails(const opened *o)
{
    text_field fields[TEXT_FIELDS];
    fields_of(&o->head, fields);
    for (size_t i = 0; i < TEXT_FIELDS; i++)
        if (!fields[i].clean)
            printf("  tail of %s not clean\n", fields[i].name);
}

/* Clears what stands after the first zero of each text field, and puts the sum right, which is what sxf_write makes of the sheet. */
static void clear_tails(opened *o)
{
    enum { SUM_AT = 12, SUM_SIZE = 4 };
    text_field fields[TEXT_FIELDS];
    uint64_t sum = o->sizes.sum;
    fields_of(&o->head, fields);
    for (size_t i = 0; i < TEXT_FIELDS; i++)
        for (size_t at = fields[i].at + fields[i].length + 1; at < fields[i].at + fields[i].size; at++) {
            sum -= o->sheet[at];
            o->sheet[at] = 0;
        }
    for (size_t i = 0; i < SUM_SIZE; i++)
        o->sheet[SUM_AT + i] = (uint8_t)(sum >> 8 * i);
}

/* item has code, type, scale byte and the length of the value. A text is shown by its length, since its coding is the sheet's affair. */
static void print_item(const uint64_t item[SXF_ITEM_WIDTH], const uint8_t *value)
{
    uint8_t kind = (uint8_t)item[SXF_ITEM_TYPE], scale = (uint8_t)item[SXF_ITEM_SCALE];
    printf("  item %" PRIu64 " type %u: ", item[SXF_ITEM_CODE], kind);
    sxf_value v = sxf_value_of(kind, scale, number_of(value, item[SXF_ITEM_LENGTH] < 8 ? item[SXF_ITEM_LENGTH] : 8));
    switch (v.kind) {
    case SXF_DECIMAL:
        printf("%" PRId64 "e%" PRId64 "\n", v.whole, v.power);
        break;
    case SXF_DOUBLE:
        printf("%.17g\n", sxf_double(v.bits));
        break;
    case SXF_NAN:
        printf("NaN\n");
        break;
    default:
        printf("%" PRIu64 " bytes\n", item[SXF_ITEM_LENGTH]);
    }
}

/* The table has a record's row, then what each part and each item has. Where a record starts and how long it is, is not in it: the first
   starts at 452, and its length stands 4 bytes after its start. (sxf_record_at answers both, but checks the whole sheet for each record.) */
static void print_records(const opened *o)
{
    const uint64_t *t = o->table;
    const uint8_t *b = o->bytes, *start = o->sheet + SXF_RECORDS_AT;
    for (uint64_t i = 0; i < o->sizes.records; i++) {
        const uint64_t *parts = t + SXF_ROW_WIDTH, *items = parts + SXF_PART_WIDTH * t[SXF_ROW_PARTS], *next = items + SXF_ITEM_WIDTH * t[SXF_ROW_ITEMS];
        uint64_t total = number_of(start + 4, 4);
        printf("%" PRIu64 " %td %" PRIu64 " %" PRIu64 " %" PRIu64 " %" PRIu64 " %" PRIu64 " %" PRIu64 " %" PRIu64 "\n", i, start - o->sheet, total,
               t[SXF_ROW_CODE], t[SXF_ROW_IN_GROUP], t[SXF_ROW_GROUP], t[SXF_ROW_REFERENCE] % 16, parts[SXF_PART_POINTS], t[SXF_ROW_ITEMS]);
        if (t[SXF_ROW_MARK] == 1)
            printf("  mark 65535\n");
        for (const uint64_t *part = parts; part < items; part += SXF_PART_WIDTH)
            b += part[SXF_PART_TEXT_LENGTH];
        for (const uint64_t *item = items; item < next; item += SXF_ITEM_WIDTH) {
            print_item(item, b);
            b += item[SXF_ITEM_LENGTH];
        }
        start += total;
        t = next;
    }
}

/* Writes the sheet from what was read of it. */
static int write_back(const char *path, const opened *o, uint8_t *out, size_t out_len, uint64_t *length)
{
    const uint8_t *s = o->sheet;
    const sxf_head h = o->head;
    sxf_written w = sxf_write(YEAR, s + SXF_DATE_AT, h.date, s + SXF_DESIGNATION_AT, h.designation, (uint32_t)h.scale, s + SXF_TITLE_AT, h.title,
                              s + SXF_REST_AT, s + SXF_DESIGNATION2_AT, h.designation2, s + SXF_CARRIED_AT, o->table, o->sizes.numbers, o->elements,
                              o->sizes.elements, o->bytes, o->sizes.bytes, out, out_len);
    *length = w.length;
    return w.number == SXF_OK ? LISTED : refused(path, w.number, w.place, w.year);
}

static int copy(const char *path, opened *o)
{
    uint64_t length = 0;
    uint8_t *out = room(o->length, 1);
    if (out == NULL)
        return failed(path, "out of memory");
    int status = write_back(path, o, out, o->length, &length);
    clear_tails(o);
    if (status == LISTED) {
        FILE *f = fopen(path, "wb");
        int written = f != NULL && fwrite(out, 1, length, f) == length;
        if (f == NULL || fclose(f) != 0 || !written)
            status = failed(path, strerror(errno));
        else if (length != o->length || memcmp(out, o->sheet, o->length) != 0) {
            fprintf(stderr, "list: %s: differs from the sheet that was read, its tails cleared\n", path);
            status = REFUSED;
        }
    }
    free(out);
    return status;
}

int main(int argc, char **argv)
{
    if (argc != 3) {
        fprintf(stderr, "usage: list FILE COPY\n");
        return FAILED;
    }
    if (sxf_version() != SXF_VERSION)
        return failed("libsxf.a", "is of another version than sxf.h");
    opened o = { 0 };
    int status = read_file(argv[1], &o);
    if (status == LISTED)
        status = unfold(argv[1], &o);
    if (status == LISTED) {
        printf("SXF %zu %" PRIu64 " %" PRIu64 "\n", o.length, o.sizes.sum, o.sizes.records);
        status = print_unit(argv[1], &o);
    }
    if (status == LISTED) {
        print_tails(&o);
        print_records(&o);
        status = copy(argv[2], &o);
    }
    free(o.sheet);
    free(o.table);
    free(o.elements);
    free(o.bytes);
    if (fflush(stdout) != 0 || ferror(stdout))
        status = failed("standard output", "cannot be written");
    return status;
}

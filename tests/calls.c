/* Calls every function of peliranopi.h on the stored files and vectors, on the example, and on refusals: calls CASES VECTORS, the
 * folders of the test programs that have them. Every number behind a pointer is nonsense before each call, so that one which is not
 * set is seen. The first wrong answer is named; the status is 1. */
#include "peliranopi.h"

#include <inttypes.h>
#include <stdio.h>
#include <stdlib.h>
#include <string.h>

#define NONSENSE 0x5A5A5A5Au

/* The example has 276 bytes and these line starts, and so has the same without the sender's phone, with a wrong identcode, and of version
 * 7. */
static const uint32_t starts[6] = {0, 74, 116, 178, 208, 216};
static uint8_t example[276], silent[276], miskeyed[276], seven[276];

/* The same, as long, with `CC` as the parcel's type, which is too long in version 7 alone; under a header of version 5, and of 7. */
static uint8_t long_type[2][276];

/* Numbers that are no version of a file; cut to 8 or 16 bits some would be. */
static const uint32_t no_versions[12] = {0, 1, 4, 6, 8, 55, 57, 256 + 5, 256 + 7, 65536 + 5, 65536 + 7, UINT32_MAX};

static const char *called, *with;
static int cases;

/* Opens a case: the function and its input, for the message. */
static void open_case(const char *function, const char *input)
{
    called = function;
    with = input;
    cases++;
}

static void fail(const char *what)
{
    printf("tests/calls: %s, %s: %s\n", called, with, what);
    exit(1);
}

static void is(const char *what, uint64_t got, uint64_t due)
{
    if (got == due)
        return;
    printf("tests/calls: %s, %s: %s: %" PRIu64 " and not %" PRIu64 "\n", called, with, what, got, due);
    exit(1);
}

/* Whether a lent output holds the written bytes at the fill and is as it was, a full stop each, everywhere else. */
static void output_is(const uint8_t *output, size_t length, const char *written, size_t fill)
{
    size_t count = strlen(written);
    for (size_t at = 0; at < length; at++) {
        int inside = at >= fill && at - fill < count;
        is("a byte of the output", output[at], inside ? (uint8_t)written[at - fill] : '.');
    }
}

/* Whether a lent list holds the first so many line starts and 0 everywhere else. */
static void list_is(const uint32_t *list, size_t length, size_t lines)
{
    for (size_t line = 0; line < length; line++)
        is("a word of the list", list[line], line < lines ? starts[line] : 0);
}

/* Opens a file of a folder; the test fails where there is none. */
static FILE *open_in(const char *folder, const char *name)
{
    char path[4096];
    snprintf(path, sizeof path, "%s/%s", folder, name);
    FILE *stream = fopen(path, "rb");
    if (stream == NULL)
        fail(path);
    return stream;
}

/* Reads a file of a folder, up to a room for it; answers its length. */
static size_t read_in(const char *folder, const char *name, uint8_t *file, size_t room)
{
    FILE *stream = open_in(folder, name);
    size_t length = fread(file, 1, room, stream);
    fclose(stream);
    return length;
}

/* Reads a row without its line feed; answers whether there was one. */
static int read_row(FILE *rows, char *row, int room)
{
    if (fgets(row, room, rows) == NULL)
        return 0;
    row[strcspn(row, "\n")] = '\0';
    return 1;
}

/* Judges a file with these countries and a list of so many words, 4,096 at most, and holds the answer against `ok LINES PARCELS CENTS
 * list SUM` or `no NUMBER PLACE list 0`, where the sum is that of the list's words. */
static void judge(const uint8_t *file, size_t length, const char *countries, size_t words, const char *due)
{
    static uint32_t list[4097];
    for (size_t line = 0; line < 4097; line++)
        list[line] = NONSENSE;
    size_t lines = NONSENSE, parcels = NONSENSE, at = NONSENSE;
    uint64_t cents = NONSENSE, sum = 0;
    uint32_t refusal = peliranopi_judge(file, length, (const uint8_t *)countries, strlen(countries), list, words,
                                        &lines, &parcels, &cents, &at);
    for (size_t line = 0; line < words; line++)
        sum += list[line];
    char answer[128];
    if (refusal == PELIRANOPI_ACCEPTED)
        snprintf(answer, sizeof answer, "ok %zu %zu %" PRIu64 " list %" PRIu64, lines, parcels, cents, sum);
    else
        snprintf(answer, sizeof answer, "no %" PRIu32 " %zu list %" PRIu64, refusal, at, sum);
    if (strcmp(answer, due) != 0)
        fail(answer);
    if (refusal == PELIRANOPI_ACCEPTED)
        is("the place", at, 0);
    else
        is("what is counted", lines | parcels | cents, 0);
    for (size_t line = lines; line < words; line++)
        is("a word behind the lines", list[line], 0);
    is("the word behind the list", list[words], NONSENSE);
}

/* The stored files: each row of stdout is a name in data/, the words lent, the countries or a hyphen for none, and the answer. */
static void judge_cases(const char *folder)
{
    static uint8_t file[1 << 18];
    char row[256], name[256], countries[256], path[512];
    FILE *rows = open_in(folder, "stdout");
    while (read_row(rows, row, sizeof row)) {
        size_t words;
        int answer;
        if (sscanf(row, "%255s %zu %255s %n", name, &words, countries, &answer) != 3 || words > 4096)
            fail(row);
        if (strcmp(countries, "-") == 0)
            countries[0] = '\0';
        open_case("judge", name);
        snprintf(path, sizeof path, "data/%s", name);
        judge(file, read_in(folder, path, file, sizeof file), countries, words, row + answer);
    }
    fclose(rows);
}

/* Reads the line at an offset of the example, or of a file like it; a refused one has neither record, fields nor next. */
static void read_line(uint32_t version, const uint8_t *file, size_t offset,
                      uint32_t refusal, uint32_t record, size_t fields, size_t next, size_t place)
{
    uint32_t named = NONSENSE;
    size_t count = NONSENSE, following = NONSENSE, at = NONSENSE;
    is("the answer", peliranopi_read_line(version, file, sizeof example, offset, &named, &count, &following, &at), refusal);
    is("the record", named, record);
    is("the fields", count, fields);
    is("the next line", following, next);
    is("the place", at, place);
}

static void read_line_cases(void)
{
    static const uint32_t records[6] = {
        PELIRANOPI_HEADER, PELIRANOPI_SENDER, PELIRANOPI_SHIPMENT, PELIRANOPI_PARCEL, PELIRANOPI_PRODUCT, PELIRANOPI_FEATURE};
    static const size_t fields[6] = {10, 16, 40, 3, 1, 10};
    for (int line = 0; line < 6; line++) {
        size_t next = line < 5 ? starts[line + 1] : sizeof example;
        open_case("read_line", "a line of the example");
        read_line(5, example, starts[line], PELIRANOPI_ACCEPTED, records[line], fields[line], next, 0);
        open_case("read_line", "a line of the example of version 7");
        read_line(7, seven, starts[line], PELIRANOPI_ACCEPTED, records[line], fields[line], next, 0);
    }
    open_case("read_line", "a header of version 5, told 7");
    read_line(PELIRANOPI_FILE_VERSION_7, example, 0, PELIRANOPI_FIELD_FORM, 0, 0, 0, 67);
    open_case("read_line", "a header of version 7, told 5");
    read_line(PELIRANOPI_FILE_VERSION_5, seven, 0, PELIRANOPI_FIELD_FORM, 0, 0, 0, 67);
    for (int which = 0; which < 2; which++) {
        /* By what is told, whatever the file's header has. */
        open_case("read_line", "a parcel type of two bytes, told 5");
        read_line(5, long_type[which], 178, PELIRANOPI_ACCEPTED, PELIRANOPI_PARCEL, 4, 211, 0);
        open_case("read_line", "a parcel type of two bytes, told 7");
        read_line(7, long_type[which], 178, PELIRANOPI_FIELD_TOO_LONG, 0, 0, 0, 207);
    }
    for (int which = 0; which < 12; which++) {
        /* Before 2 too. */
        open_case("read_line", "no version");
        read_line(no_versions[which], example, 0, PELIRANOPI_UNKNOWN_VERSION, 0, 0, 0, 0);
        open_case("read_line", "no version, past the file");
        read_line(no_versions[which], example, SIZE_MAX, PELIRANOPI_UNKNOWN_VERSION, 0, 0, 0, 0);
    }
    static const uint8_t zeros[PELIRANOPI_FILE_LEN_MAX + 1];
    static const uint32_t versions[3] = {5, 7, 6};
    for (int which = 0; which < 3; which++) {
        open_case("read_line", "a file that is too long, under a version and none");
        uint32_t named = NONSENSE;
        size_t count = NONSENSE, following = NONSENSE, at = NONSENSE;
        int known = versions[which] != 6;
        is("the answer", peliranopi_read_line(versions[which], zeros, sizeof zeros, 0, &named, &count, &following, &at),
           known ? PELIRANOPI_FILE_TOO_LONG : PELIRANOPI_UNKNOWN_VERSION);
        is("the numbers", named | count | following, 0);
        is("the place", at, known ? PELIRANOPI_FILE_LEN_MAX : 0);
    }
    open_case("read_line", "inside a line");
    read_line(5, example, 4, PELIRANOPI_UNKNOWN_RECORD, 0, 0, 0, 4);
    open_case("read_line", "the file's end");
    read_line(5, example, sizeof example, PELIRANOPI_NO_LINE_END, 0, 0, 0, sizeof example);
    open_case("read_line", "past the file");
    read_line(5, example, SIZE_MAX, PELIRANOPI_NO_LINE_END, 0, 0, 0, sizeof example);
    open_case("read_line", "an identcode with a wrong check digit");
    read_line(5, miskeyed, 178, PELIRANOPI_FIELD_FORM, 0, 0, 0, 182);
}

/* Finds a field of the example, or of a file like it. */
static void find_field(uint32_t version, const uint8_t *file, size_t offset, size_t number,
                       uint32_t refusal, size_t start, const char *field, size_t place)
{
    size_t found = NONSENSE, length = NONSENSE, at = NONSENSE;
    is("the answer", peliranopi_find_field(version, file, sizeof example, offset, number, &found, &length, &at), refusal);
    is("the start", found, start);
    is("the length", length, strlen(field));
    is("the place", at, place);
    if (memcmp(file + found, field, length) != 0)
        fail("the field has other bytes");
}

static void find_field_cases(void)
{
    open_case("find_field", "the cash amount");
    find_field(5, example, 216, 3, PELIRANOPI_ACCEPTED, 225, "12.50", 0);
    open_case("find_field", "an empty field");
    find_field(5, example, 216, 2, PELIRANOPI_ACCEPTED, 224, "", 0);
    open_case("find_field", "the identcode");
    find_field(5, example, 178, 1, PELIRANOPI_ACCEPTED, 182, "1000000000000000000007", 0);
    open_case("find_field", "field 0");
    find_field(5, example, 216, 0, PELIRANOPI_NOT_THERE, 0, "", 0);
    open_case("find_field", "field 11 of 10");
    find_field(5, example, 216, 11, PELIRANOPI_NOT_THERE, 0, "", 0);
    open_case("find_field", "inside a line");
    find_field(5, example, 75, 1, PELIRANOPI_UNKNOWN_RECORD, 0, "", 75);
    open_case("find_field", "the version of a header");
    find_field(7, seven, 0, 6, PELIRANOPI_ACCEPTED, 67, "7", 0);
    open_case("find_field", "a header of version 7, told 5");
    find_field(5, seven, 0, 6, PELIRANOPI_FIELD_FORM, 0, "", 67);
    for (int which = 0; which < 2; which++) {
        open_case("find_field", "a parcel type of two bytes, told 5");
        find_field(5, long_type[which], 178, 4, PELIRANOPI_ACCEPTED, 207, "CC", 0);
        /* The line's refusal comes before 15. */
        open_case("find_field", "field 0 of a line with a parcel type of two bytes, told 7");
        find_field(7, long_type[which], 178, 0, PELIRANOPI_FIELD_TOO_LONG, 0, "", 207);
    }
    for (int which = 0; which < 12; which++) {
        /* Before 3 and 15 too. */
        open_case("find_field", "no version");
        find_field(no_versions[which], example, 216, 3, PELIRANOPI_UNKNOWN_VERSION, 0, "", 0);
        open_case("find_field", "no version, field 0 inside a line");
        find_field(no_versions[which], example, 75, 0, PELIRANOPI_UNKNOWN_VERSION, 0, "", 0);
    }
    open_case("find_field", "behind an identcode with a wrong check digit");
    find_field(5, miskeyed, 178, 2, PELIRANOPI_FIELD_FORM, 0, "", 182);
}

/* Writes a line into an output of so many bytes, 128 at most. */
static void write_line(uint32_t version, uint32_t record, const char *text, const size_t *ends, size_t count, size_t length,
                       size_t fill, uint32_t refusal, const char *line, size_t place)
{
    uint8_t output[128];
    memset(output, '.', sizeof output);
    size_t written = NONSENSE, at = NONSENSE;
    uint32_t answer = peliranopi_write_line(version, record, (const uint8_t *)text, strlen(text), ends, count, output, length,
                                            fill, &written, &at);
    is("the answer", answer, refusal);
    is("the bytes written", written, strlen(line));
    is("the place", at, place);
    output_is(output, sizeof output, line, fill);
}

static void write_line_cases(void)
{
    static const size_t product[1] = {2};
    static const size_t cash[10] = {3, 3, 8, 11, 17, 37, 45, 45, 45, 45};
    const char *text = "00612.50EURMusterAT611904300234573201ABCDATWW";
    const char *line = "060;006;;12.50;EUR;Muster;AT611904300234573201;ABCDATWW;;;\r\n";
    open_case("write_line", "the example's last line");
    if (memcmp(line, example + 216, 60) != 0)
        fail("the example has another");
    write_line(5, PELIRANOPI_FEATURE, text, cash, 10, 60, 0, PELIRANOPI_ACCEPTED, line, 0);
    open_case("write_line", "behind 40 bytes");
    write_line(5, PELIRANOPI_FEATURE, text, cash, 10, 128, 40, PELIRANOPI_ACCEPTED, line, 0);
    open_case("write_line", "one byte short");
    write_line(5, PELIRANOPI_FEATURE, text, cash, 10, 99, 40, PELIRANOPI_OUTPUT_TOO_SHORT, "", 0);
    open_case("write_line", "a fill past the output");
    write_line(5, PELIRANOPI_PRODUCT, "10", product, 1, 128, SIZE_MAX, PELIRANOPI_OUTPUT_TOO_SHORT, "", 0);
    open_case("write_line", "record 51");
    write_line(5, 51, "10", product, 1, 128, 0, PELIRANOPI_UNKNOWN_RECORD, "", 0);
    open_case("write_line", "an end behind the text");
    write_line(5, PELIRANOPI_PRODUCT, "1", product, 1, 128, 0, PELIRANOPI_FIELD_ENDS, "", 0);
    open_case("write_line", "one field of ten");
    write_line(5, PELIRANOPI_FEATURE, "10", product, 1, 128, 0, PELIRANOPI_FIELD_COUNT, "", 0);
    open_case("write_line", "a semicolon in field 1");
    write_line(5, PELIRANOPI_PRODUCT, "1;", product, 1, 128, 0, PELIRANOPI_FIELD_FORM, "", 1);
    static const size_t wide[1] = {3}, typed[4] = {22, 22, 22, 23}, untyped[4] = {22, 22, 22, 22};
    open_case("write_line", "a product code of three bytes in version 5");
    write_line(5, PELIRANOPI_PRODUCT, "010", wide, 1, 128, 0, PELIRANOPI_ACCEPTED, "050;010\r\n", 0);
    open_case("write_line", "a product code of three bytes in version 7");
    write_line(7, PELIRANOPI_PRODUCT, "010", wide, 1, 128, 0, PELIRANOPI_FIELD_TOO_LONG, "", 1);
    open_case("write_line", "a parcel with its type in version 7");
    write_line(7, PELIRANOPI_PARCEL, "1000000000000000000007C", typed, 4, 128, 0, PELIRANOPI_ACCEPTED,
               "040;1000000000000000000007;;;C\r\n", 0);
    open_case("write_line", "a parcel with an empty type in version 7");
    write_line(7, PELIRANOPI_PARCEL, "1000000000000000000007", untyped, 4, 128, 0, PELIRANOPI_FIELD_EMPTY, "", 4);
    open_case("write_line", "a parcel with an empty type in version 5");
    write_line(5, PELIRANOPI_PARCEL, "1000000000000000000007", untyped, 4, 128, 0, PELIRANOPI_ACCEPTED,
               "040;1000000000000000000007;;;\r\n", 0);
    for (int which = 0; which < 12; which++) {
        /* Before 3, 14 and 13 too. */
        open_case("write_line", "no version");
        write_line(no_versions[which], PELIRANOPI_PRODUCT, "10", product, 1, 128, 0, PELIRANOPI_UNKNOWN_VERSION, "", 0);
        open_case("write_line", "no version, no record, no such ends and no output");
        write_line(no_versions[which], 51, "1", product, 1, 0, 1, PELIRANOPI_UNKNOWN_VERSION, "", 0);
    }
    static const size_t parcel[3] = {22, 22, 22};
    open_case("write_line", "an identcode");
    write_line(5, PELIRANOPI_PARCEL, "8546379003275981863426", parcel, 3, 128, 7, PELIRANOPI_ACCEPTED,
               "040;8546379003275981863426;;\r\n", 0);
    open_case("write_line", "an identcode with a wrong check digit");
    write_line(5, PELIRANOPI_PARCEL, "8546379003275981863427", parcel, 3, 128, 7, PELIRANOPI_FIELD_FORM, "", 1);
}

/* Writes the purpose of a line of the example, or of a file like it, into an output of so many bytes, 64 at most. */
static void write_purpose(const uint8_t *file, const char *countries, size_t line, size_t length,
                          uint32_t refusal, const char *purpose, size_t place)
{
    uint8_t output[64];
    memset(output, '.', sizeof output);
    uint32_t list[8];
    for (size_t word = 0; word < 8; word++)
        list[word] = NONSENSE;
    size_t written = NONSENSE, at = NONSENSE;
    uint32_t answer = peliranopi_write_purpose(file, sizeof example, (const uint8_t *)countries, strlen(countries), line,
                                               list, 8, output, length, &written, &at);
    is("the answer", answer, refusal);
    is("the bytes written", written, strlen(purpose));
    is("the place", at, place);
    output_is(output, sizeof output, purpose, 0);
    list_is(list, 8, refusal ? 0 : 6);
}

static void write_purpose_cases(void)
{
    const char *purpose = "1000000000000000000007/B";
    open_case("write_purpose", "the cash line");
    write_purpose(example, "", 5, 64, PELIRANOPI_ACCEPTED, purpose, 0);
    open_case("write_purpose", "the cash line in version 7");
    write_purpose(seven, "CHAT", 5, 64, PELIRANOPI_ACCEPTED, purpose, 0);
    open_case("write_purpose", "an output of 35 bytes");
    write_purpose(example, "", 5, PELIRANOPI_PURPOSE_LEN_MAX, PELIRANOPI_ACCEPTED, purpose, 0);
    open_case("write_purpose", "an output of 34 bytes");
    write_purpose(example, "", 5, PELIRANOPI_PURPOSE_LEN_MAX - 1, PELIRANOPI_OUTPUT_TOO_SHORT, "", 0);
    open_case("write_purpose", "a line that is no 006 line");
    write_purpose(example, "", 4, 64, PELIRANOPI_NOT_THERE, "", 0);
    open_case("write_purpose", "a line that is not there");
    write_purpose(example, "", 6, 64, PELIRANOPI_NOT_THERE, "", 0);
    open_case("write_purpose", "a listed country and both contacts");
    write_purpose(example, "CHAT", 5, 64, PELIRANOPI_ACCEPTED, purpose, 0);
    open_case("write_purpose", "no phone and no countries");
    write_purpose(silent, "", 5, 64, PELIRANOPI_ACCEPTED, purpose, 0);
    open_case("write_purpose", "no phone and a listed country");
    write_purpose(silent, "CHAT", 5, 64, PELIRANOPI_CONTACT_MISSING, "", 116);
    open_case("write_purpose", "half a country");
    write_purpose(silent, "CHA", 5, 64, PELIRANOPI_COUNTRIES_ODD, "", 0);
    open_case("write_purpose", "an identcode with a wrong check digit");
    write_purpose(miskeyed, "", 5, 64, PELIRANOPI_FIELD_FORM, "", 182);
}

static void check_number(const char *symbols, uint32_t refusal, uint32_t kind, size_t place)
{
    open_case("check_number", symbols);
    uint32_t told = NONSENSE;
    size_t at = NONSENSE;
    is("the answer", peliranopi_check_number((const uint8_t *)symbols, strlen(symbols), &told, &at), refusal);
    is("the kind", told, kind);
    is("the place", at, place);
}

/* Checks a day's numbers with a room of so many answer bytes, which hold 99 before, 64 at most, and holds the answer against
 * `passed COUNT` or `no NUMBER PLACE` with every byte of the room behind it. */
static void check_numbers(const char *numbers, size_t room, const char *due)
{
    open_case("check_numbers", numbers);
    uint8_t answers[66];
    memset(answers, 99, sizeof answers);
    size_t passed = NONSENSE, at = NONSENSE;
    uint32_t refusal = peliranopi_check_numbers((const uint8_t *)numbers, strlen(numbers), answers + 1, room, &passed, &at);
    char answer[512];
    int length;
    if (refusal == PELIRANOPI_ACCEPTED)
        length = snprintf(answer, sizeof answer, "passed %zu", passed);
    else
        length = snprintf(answer, sizeof answer, "no %" PRIu32 " %zu", refusal, at);
    for (size_t byte = 1; byte <= room; byte++)
        length += snprintf(answer + length, sizeof answer - (size_t)length, " %u", (unsigned)answers[byte]);
    if (strcmp(answer, due) != 0)
        fail(answer);
    is(refusal == PELIRANOPI_ACCEPTED ? "the place" : "what passed", refusal == PELIRANOPI_ACCEPTED ? at : passed, 0);
    is("the byte in front of the answers", answers[0], 99);
    is("the byte behind the answers", answers[room + 1], 99);
}

/* One byte in place of another in the middle one of three numbers, which pass: its answer is that of its own call, and those of its
 * neighbours are 0. */
static void check_numbers_alone(size_t place, uint8_t byte)
{
    static char input[64];
    snprintf(input, sizeof input, "byte %u at %zu of the middle number", byte, place);
    open_case("check_numbers", input);
    uint8_t numbers[3 * PELIRANOPI_TRACKING_LEN], answers[4] = {99, 99, 99, 99};
    memcpy(numbers, "09980000020041F00000000000000U016325329483752", sizeof numbers);
    uint8_t *middle = numbers + PELIRANOPI_TRACKING_LEN;
    middle[place] = byte;
    uint32_t kind;
    size_t passed = NONSENSE, at = NONSENSE, at_alone;
    uint32_t alone = peliranopi_check_number(middle, PELIRANOPI_TRACKING_LEN, &kind, &at_alone);
    is("the answer", peliranopi_check_numbers(numbers, sizeof numbers, answers, sizeof answers, &passed, &at), PELIRANOPI_ACCEPTED);
    is("what passed", passed, alone == PELIRANOPI_ACCEPTED ? 3 : 2);
    is("the place", at, 0);
    is("the answer of the first", answers[0], PELIRANOPI_ACCEPTED);
    is("the answer of the middle one", answers[1], alone);
    is("the answer of the last", answers[2], PELIRANOPI_ACCEPTED);
    is("the byte behind the last number's", answers[3], 99);
    /* A byte behind the last number's that is 0 is not counted. */
    answers[3] = 0;
    is("the answer", peliranopi_check_numbers(numbers, sizeof numbers, answers, sizeof answers, &passed, &at), PELIRANOPI_ACCEPTED);
    is("what passed again", passed, alone == PELIRANOPI_ACCEPTED ? 3 : 2);
}

static void check_numbers_cases(void)
{
    for (size_t place = 0; place < PELIRANOPI_TRACKING_LEN; place++) {
        for (int byte = 0; byte < 256; byte++)
            check_numbers_alone(place, (uint8_t)byte);
    }
    /* Every length of the buffer with every room: 16, then 13. */
    const char *whole = "09980000020041F09980000020041G09980000020041f";
    for (size_t length = 0; length <= strlen(whole); length++) {
        char numbers[64];
        snprintf(numbers, sizeof numbers, "%.*s", (int)length, whole);
        for (size_t room = 0; room <= 4; room++) {
            static const char *const stay[5] = {"", " 99", " 99 99", " 99 99 99", " 99 99 99 99"};
            static const char *const answers[4] = {"passed 0", "passed 1 0", "passed 1 0 18", "passed 1 0 18 17"};
            size_t count = length / PELIRANOPI_TRACKING_LEN;
            char due[64];
            if (length % PELIRANOPI_TRACKING_LEN)
                snprintf(due, sizeof due, "no %d 0%s", PELIRANOPI_WRONG_LENGTH, stay[room]);
            else if (room < count)
                snprintf(due, sizeof due, "no %d 0%s", PELIRANOPI_OUTPUT_TOO_SHORT, stay[room]);
            else
                snprintf(due, sizeof due, "%s%s", answers[count], stay[room - count]);
            check_numbers(numbers, room, due);
        }
    }
}

/* Issues a number into an output of so many bytes, 32 at most. */
static void issue_number(const char *body, size_t length, uint32_t refusal, const char *number, size_t place)
{
    open_case("issue_number", body);
    uint8_t output[32];
    memset(output, '.', sizeof output);
    size_t written = NONSENSE, at = NONSENSE;
    is("the answer", peliranopi_issue_number((const uint8_t *)body, strlen(body), output, length, &written, &at), refusal);
    is("the bytes written", written, strlen(number));
    is("the place", at, place);
    output_is(output, sizeof output, number, 0);
}

/* "For each symbol add its value, reduce modulo 36 with 0 read as 36, double, reduce modulo 37." */
static uint32_t step(uint32_t carry, uint32_t value)
{
    uint32_t left = (carry + value) % 36;
    return (left == 0 ? 36 : left) * 2 % 37;
}

/* The carry after one more symbol; what is refused leaves none. */
static void next_carry(uint32_t carry, uint8_t symbol, uint32_t refusal, uint32_t due)
{
    static char input[64];
    snprintf(input, sizeof input, "carry %" PRIu32 ", byte %u", carry, symbol);
    open_case("next_carry", input);
    uint32_t next = NONSENSE;
    size_t at = NONSENSE;
    is("the answer", peliranopi_next_carry(carry, symbol, &next, &at), refusal);
    is("the next carry", next, due);
    is("the place", at, 0);
}

/* A number that is typed and passes: the carry behind each of its symbols. */
static void keyed(const char *symbols, const uint32_t *carries)
{
    uint32_t carry = PELIRANOPI_CARRY_START;
    for (size_t key = 0; symbols[key] != '\0'; key++) {
        next_carry(carry, (uint8_t)symbols[key], PELIRANOPI_ACCEPTED, carries[key]);
        carry = carries[key];
    }
    is("the last carry", carry, PELIRANOPI_CARRY_PASSED);
}

static void next_carry_cases(void)
{
    static const uint32_t tracking[15] = {35, 16, 13, 5, 10, 20, 3, 6, 12, 28, 19, 1, 10, 22, 2};
    keyed("09980000020041F", tracking);
    static const uint32_t zeros[15] = {35, 33, 29, 21, 5, 10, 20, 3, 6, 12, 24, 11, 22, 7, 2};
    keyed("00000000000000U", zeros);
    static const char symbols[] = "0123456789ABCDEFGHIJKLMNOPQRSTUVWXYZ";
    /* No carries, though some would be if they were cut to 8 or 16 bits. */
    static const uint32_t none[7] = {0, 37, 255, 256, 256 + 36, 65536 + 36, UINT32_MAX};
    for (int byte = 0; byte < 256; byte++) {
        const char *symbol = memchr(symbols, byte, 36);
        for (uint32_t carry = 1; carry <= 36; carry++) {
            if (symbol)
                next_carry(carry, (uint8_t)byte, PELIRANOPI_ACCEPTED, step(carry, (uint32_t)(symbol - symbols)));
            else
                next_carry(carry, (uint8_t)byte, PELIRANOPI_WRONG_SYMBOL, 0);
        }
        for (size_t which = 0; which < 7; which++)
            next_carry(none[which], (uint8_t)byte, PELIRANOPI_NOT_THERE, 0);
    }
}

static void check_iban(const char *symbols, uint32_t refusal, size_t place)
{
    open_case("check_iban", symbols);
    size_t at = NONSENSE;
    is("the answer", peliranopi_check_iban((const uint8_t *)symbols, strlen(symbols), &at), refusal);
    is("the place", at, place);
}

static void check_identcode(const char *code, uint32_t refusal, size_t place)
{
    open_case("check_identcode", code);
    size_t at = NONSENSE;
    is("the answer", peliranopi_check_identcode((const uint8_t *)code, strlen(code), &at), refusal);
    is("the place", at, place);
}

/* Reads an identcode, whose parts have a space between them where it is accepted; a refused one has none. */
static void read_identcode(const char *code, uint32_t refusal, const char *due, size_t place)
{
    open_case("read_identcode", code);
    peliranopi_identcode_parts parts;
    memset(&parts, NONSENSE & 0xFF, sizeof parts);
    size_t at = NONSENSE;
    is("the answer", peliranopi_read_identcode((const uint8_t *)code, strlen(code), &parts, &at), refusal);
    is("the place", at, place);
    const peliranopi_part each[6] = {parts.origin, parts.customer, parts.sequence, parts.product, parts.destination, parts.check};
    for (int part = 0; part < 6; part++) {
        size_t length = strcspn(due, " "), start = 0;
        for (int before = 0; before < part; before++)
            start += each[before].length;
        is("the start of a part", each[part].start, start);
        is("the length of a part", each[part].length, length);
        if (memcmp(code + start, due, length) != 0)
            fail("a part has other digits");
        due += due[length] == ' ' ? length + 1 : length;
    }
    is("what is left of the parts", strlen(due), 0);
}

/* Issues an identcode into an output of so many bytes, 32 at most. */
static void issue_identcode(const char *body, size_t length, uint32_t refusal, const char *code, size_t place)
{
    open_case("issue_identcode", body);
    uint8_t output[32];
    memset(output, '.', sizeof output);
    size_t written = NONSENSE, at = NONSENSE;
    is("the answer", peliranopi_issue_identcode((const uint8_t *)body, strlen(body), output, length, &written, &at), refusal);
    is("the bytes written", written, strlen(code));
    is("the place", at, place);
    output_is(output, sizeof output, code, 0);
}

/* One answer in words to a key: a carry, or `no`, the refusal's number and 0. Gives what follows it. */
static const char *answered_key(uint32_t carry, char key, const char *due, uint32_t *next)
{
    uint32_t refusal = PELIRANOPI_ACCEPTED;
    int length = 0;
    *next = 0;
    if (sscanf(due, "no %" SCNu32 " 0%n", &refusal, &length) < 1)
        sscanf(due, "%" SCNu32 "%n", next, &length);
    next_carry(carry, (uint8_t)key, refusal, *next);
    return due + length;
}

/* A carry, a space and a key. */
static void asked_key(const char *text, const char *due)
{
    char *key;
    uint32_t carry = (uint32_t)strtoul(text, &key, 10), next;
    if (*answered_key(carry, key[1], due, &next))
        fail(text);
}

/* Keys one behind the other, from the first carry on; behind a refusal the carry is the 0 that it tells. */
static void typed_keys(const char *keys, const char *due)
{
    uint32_t carry = PELIRANOPI_CARRY_START;
    for (const char *key = keys; *key; key++) {
        due = answered_key(carry, *key, due, &carry);
        due += *due == ' ';
    }
    if (*due)
        fail(keys);
}

/* A room of answer bytes, a space and a day's numbers. */
static void asked_day(const char *text, const char *due)
{
    char *space;
    size_t room = (size_t)strtoul(text, &space, 10);
    if (*space != ' ' || room > 64)
        fail(text);
    check_numbers(space + 1, room, due);
}

/* One stored vector: what is asked, the symbols, and the answer in words. The answer of `C` comes from no call. */
static void vector(char asked, const char *symbols, const char *due)
{
    uint32_t refusal = PELIRANOPI_ACCEPTED;
    size_t place = 0;
    char number[64] = "";
    sscanf(due, "no %" SCNu32 " %zu", &refusal, &place);
    if ((asked == 'B' || asked == 'J') && refusal == PELIRANOPI_ACCEPTED)
        snprintf(number, sizeof number, "%.*s", (int)strcspn(due, "."), due);
    uint32_t kind = strcmp(due, "tracking number") == 0 ? PELIRANOPI_TRACKING : strcmp(due, "label code") == 0 ? PELIRANOPI_LABEL : 0;
    if (asked == 'N')
        check_number(symbols, refusal, kind, place);
    else if (asked == 'B')
        issue_number(symbols, 30, refusal, number, place);
    else if (asked == 'I')
        check_iban(symbols, refusal, place);
    else if (asked == 'D')
        check_identcode(symbols, refusal, place);
    else if (asked == 'P')
        read_identcode(symbols, refusal, refusal ? "" : due, place);
    else if (asked == 'J')
        issue_identcode(symbols, 30, refusal, number, place);
    else if (asked == 'K')
        asked_key(symbols, due);
    else if (asked == 'T')
        typed_keys(symbols, due);
    else if (asked == 'A')
        asked_day(symbols, due);
    else if (asked != 'C')
        fail("no such vector");
}

/* The stored vectors: a row of stdin is a letter and symbols, and that of stdout the symbols and the answer. */
static void vector_cases(const char *folder)
{
    char request[2048], answer[8192];
    FILE *requests = open_in(folder, "stdin"), *answers = open_in(folder, "stdout");
    while (read_row(requests, request, sizeof request)) {
        const char *symbols = request + 2;
        size_t length = strlen(symbols);
        if (!read_row(answers, answer, sizeof answer) || strncmp(answer, symbols, length) != 0)
            fail(request);
        vector(request[0], symbols, answer + length + 1);
    }
    fclose(requests);
    fclose(answers);
    issue_number("09980000020041", PELIRANOPI_TRACKING_LEN, PELIRANOPI_ACCEPTED, "09980000020041F", 0);
    issue_number("09980000020041", PELIRANOPI_TRACKING_LEN - 1, PELIRANOPI_OUTPUT_TOO_SHORT, "", 0);
    issue_number("000280009980000020037155056", PELIRANOPI_LABEL_LEN, PELIRANOPI_ACCEPTED, "0002800099800000200371550566", 0);
    issue_identcode("100000000000000000000", PELIRANOPI_IDENTCODE_LEN, PELIRANOPI_ACCEPTED, "1000000000000000000007", 0);
    issue_identcode("100000000000000000000", PELIRANOPI_IDENTCODE_LEN - 1, PELIRANOPI_OUTPUT_TOO_SHORT, "", 0);
    issue_identcode("100000000000000000000", 0, PELIRANOPI_OUTPUT_TOO_SHORT, "", 0);
    /* 16, then 17, then 13. */
    issue_identcode("10000000000000000000", 0, PELIRANOPI_WRONG_LENGTH, "", 0);
    issue_identcode("10000000000000000000O", 0, PELIRANOPI_WRONG_SYMBOL, "", 20);
    /* Of the lengths at the limits: the first symbol is a digit, which is told where the length holds. */
    const char *digits = "00000000000000000000000000000000000";
    const char *end = digits + strlen(digits);
    check_iban(end - (PELIRANOPI_IBAN_LEN_MIN - 1), PELIRANOPI_WRONG_LENGTH, 0);
    check_iban(end - PELIRANOPI_IBAN_LEN_MIN, PELIRANOPI_WRONG_SYMBOL, 0);
    check_iban(end - PELIRANOPI_IBAN_LEN_MAX, PELIRANOPI_WRONG_SYMBOL, 0);
    check_iban(end - (PELIRANOPI_IBAN_LEN_MAX + 1), PELIRANOPI_WRONG_LENGTH, 0);
}

int main(int argc, char **argv)
{
    if (argc != 3) {
        fprintf(stderr, "usage: calls CASES VECTORS\n");
        return 2;
    }
    called = "calls";
    with = "the example";
    is("its length", read_in(argv[1], "data/example", example, sizeof example), sizeof example);
    /* House 11 and no phone, in place of house 1 and phone 1. */
    memcpy(silent, example, sizeof example);
    memcpy(silent + 104, "11;;a@b", 7);
    /* The check digit 1 in place of 7. */
    memcpy(miskeyed, example, sizeof example);
    miskeyed[203] = '1';
    /* `7` in field 6 of the header. */
    memcpy(seven, example, sizeof example);
    seven[67] = '7';
    /* `;CC` behind the parcel's three fields, and `ter` in place of `Muster` two lines below. */
    for (int which = 0; which < 2; which++) {
        uint8_t *file = long_type[which];
        memcpy(file, which ? seven : example, sizeof example);
        memcpy(file + 206, ";CC", 3);
        memcpy(file + 209, example + 206, 29);
    }
    judge_cases(argv[1]);
    read_line_cases();
    find_field_cases();
    write_line_cases();
    write_purpose_cases();
    check_numbers_cases();
    next_carry_cases();
    vector_cases(argv[2]);
    printf("test: %d calls from C: answered as they should be\n", cases);
    return 0;
}

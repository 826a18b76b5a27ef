/* The calls of Peliranopi for C and C++. Link libpeliranopi.a, which `./library` builds (README.md, 'From C').
 *
 * Every call answers 0 where it accepts, else the refusal's number below. Each takes every input: whatever the bytes, lengths and
 * numbers are, it ends and reads and writes only inside what it was lent. What the caller has to keep is C's own part: a pointer has
 * as many elements behind it as its length says, or one where it has no length; what is lent for writing overlaps nothing else; and
 * no pointer is null, not even for length 0.
 *
 * After every call each number behind a pointer is set: `place` to the refusal's place, or 0 where the call accepts; every other one
 * to the value that its comment names, or 0 where the call refuses. */
#ifndef PELIRANOPI_H
#define PELIRANOPI_H

#include <stddef.h>
#include <stdint.h>

#ifdef __cplusplus
extern "C" {
#endif

/* The version of this interface; that of a file is PELIRANOPI_FILE_VERSION_5 or _7 below. CONTRIBUTING.md says how it is counted. */
#define PELIRANOPI_VERSION_MAJOR 0
#define PELIRANOPI_VERSION_MINOR 6
#define PELIRANOPI_VERSION_PATCH 0
#define PELIRANOPI_VERSION "0.6.0"

/* The refusals. README.md has the table with their places. Later versions may have more: an answer that is not 0 is a refusal, also
 * where its number is not among these. */
enum {
    PELIRANOPI_ACCEPTED = 0,
    PELIRANOPI_FILE_TOO_LONG = 1,       /* the file has over 65,535 bytes */
    PELIRANOPI_NO_LINE_END = 2,         /* a line's first byte that is no text byte is missing or not CR LF, or the offset lies
                                           past the file */
    PELIRANOPI_UNKNOWN_RECORD = 3,      /* the record type is none of 010 to 060 */
    PELIRANOPI_OUT_OF_ORDER = 4,        /* the record may not come here */
    PELIRANOPI_FIELD_COUNT = 5,         /* the line has too few or too many fields */
    PELIRANOPI_FIELD_TOO_LONG = 6,      /* a field is wider than it may be */
    PELIRANOPI_FIELD_EMPTY = 7,         /* a field that must be filled is empty */
    PELIRANOPI_FIELD_FORM = 8,          /* a filled field does not have its form */
    PELIRANOPI_FEATURE_LACKS = 9,       /* a feature lacks a field that it needs */
    PELIRANOPI_IDENTCODE_REPEATED = 10, /* the identcode stands on an earlier line */
    PELIRANOPI_LIST_FULL = 11,          /* the lent list has no word for the line */
    PELIRANOPI_FILE_ENDS = 12,          /* the file ends where a record is due */
    PELIRANOPI_OUTPUT_TOO_SHORT = 13,   /* the lent output has too few bytes */
    PELIRANOPI_FIELD_ENDS = 14,         /* the ends of the writer's fields do not fit its text */
    PELIRANOPI_NOT_THERE = 15,          /* there is no such field, line or carry, or it is not a 006 line */
    PELIRANOPI_WRONG_LENGTH = 16,       /* a number or a day's buffer has a wrong length */
    PELIRANOPI_WRONG_SYMBOL = 17,       /* a symbol may not stand where it stands */
    PELIRANOPI_WRONG_CHECK = 18,        /* the check is wrong */
    PELIRANOPI_CONTACT_MISSING = 19,    /* a sender's phone or mail is empty, and this shipment's country is on the lent list */
    PELIRANOPI_COUNTRIES_ODD = 20,      /* the lent list of countries has an odd length */
    PELIRANOPI_UNKNOWN_VERSION = 22     /* a line call is told a version that is neither 5 nor 7 */
};

/* The versions of a file, as numbers. A file is of version 7 where its first line is a 010 line whose field 6 is the one byte `7`; every
 * other file is judged as one of version 5. The version decides how wide each field may be and which must be filled (docs/fields.txt).
 * peliranopi_judge and peliranopi_write_purpose find it themselves; the calls on one line are told it. Of an accepted file it is 7
 * exactly where peliranopi_read_line, told 7, accepts the line at offset 0; else it is 5. */
enum {
    PELIRANOPI_FILE_VERSION_5 = 5,
    PELIRANOPI_FILE_VERSION_7 = 7
};

/* The records of a file, as numbers. */
enum {
    PELIRANOPI_HEADER = 10,   /* 010, the first line */
    PELIRANOPI_SENDER = 20,   /* 020, who sends */
    PELIRANOPI_SHIPMENT = 30, /* 030, one shipment and its receiver */
    PELIRANOPI_PARCEL = 40,   /* 040, one parcel of the shipment */
    PELIRANOPI_PRODUCT = 50,  /* 050, the product */
    PELIRANOPI_FEATURE = 60   /* 060, a feature of the product, for example cash on delivery */
};

/* The kinds of DPD number. */
enum {
    PELIRANOPI_TRACKING = 1, /* a tracking number: 14 digits and a check */
    PELIRANOPI_LABEL = 2     /* a label code: 27 symbols and a check */
};

/* The limits. Lengths are in bytes. */
enum {
    PELIRANOPI_FILE_LEN_MAX = 65535, /* a longer file is refused */
    PELIRANOPI_LINES_MAX = 3640,     /* more lines no accepted file has: a list with so many words is never full */
    PELIRANOPI_PURPOSE_LEN_MAX = 35, /* a payment purpose at most, and the output for it at least */
    PELIRANOPI_TRACKING_LEN = 15,    /* a tracking number */
    PELIRANOPI_LABEL_LEN = 28,       /* a label code */
    PELIRANOPI_IBAN_LEN_MIN = 15,    /* an IBAN at least */
    PELIRANOPI_IBAN_LEN_MAX = 34,    /* an IBAN at most */
    PELIRANOPI_IDENTCODE_LEN = 22    /* an identcode */
};

/* The carries at the two ends of a DPD number. */
enum {
    PELIRANOPI_CARRY_START = 36, /* before the first symbol */
    PELIRANOPI_CARRY_PASSED = 2  /* behind the last symbol of a number that passes */
};

/* Judges a whole file, by the rules of its own version: its lines, its 040 lines (parcels), and the cash to collect in cents.
 * countries: pairs of capitals, one behind the other, as in "CHGBUS". A sender with a shipment to one of them (030.20) needs phone and
 * mail (020.12 and 020.13). With length 0 nobody needs them.
 * list: accepted, word i is where line i starts, for each line, and every other word is 0; refused, all words are 0. */
uint32_t peliranopi_judge(const uint8_t *file, size_t file_len,
                          const uint8_t *countries, size_t countries_len,
                          uint32_t *list, size_t list_len,
                          size_t *lines, size_t *parcels, uint64_t *cents, size_t *place);

/* Judges the line that starts at the offset, alone: its record (PELIRANOPI_HEADER to PELIRANOPI_FEATURE), how many fields it has
 * behind the record type, and where the next line starts. No sender needs phone and mail here.
 * version: PELIRANOPI_FILE_VERSION_5 or PELIRANOPI_FILE_VERSION_7, whose field rules hold; another number is refused by
 * PELIRANOPI_UNKNOWN_VERSION, before all else. A header line must have this version in 010.6. */
uint32_t peliranopi_read_line(uint32_t version, const uint8_t *file, size_t file_len, size_t offset,
                              uint32_t *record, size_t *fields, size_t *next, size_t *place);

/* Finds the field with this number, counted from 1, of the line that starts at the offset: where it starts in the file, and how many
 * bytes it has.
 * version: as for peliranopi_read_line. */
uint32_t peliranopi_find_field(uint32_t version, const uint8_t *file, size_t file_len, size_t offset, size_t number,
                               size_t *start, size_t *length, size_t *place);

/* Writes one line: its record (PELIRANOPI_HEADER to PELIRANOPI_FEATURE), the fields joined in one text, and where each of them ends
 * in it.
 * version: as for peliranopi_read_line.
 * place: the number of the field for the refusals 6 to 8, counted from 1, else 0.
 * written: how many bytes.
 * output: accepted, the line stands from fill on, and every other byte is as it was; refused, all bytes are as they were. */
uint32_t peliranopi_write_line(uint32_t version, uint32_t record, const uint8_t *text, size_t text_len,
                               const size_t *ends, size_t ends_len,
                               uint8_t *output, size_t output_len, size_t fill,
                               size_t *written, size_t *place);

/* Writes the payment purpose of the line with this number, counted from 0, of a file of either version. The output has
 * PELIRANOPI_PURPOSE_LEN_MAX bytes or more, or it is refused.
 * countries: as for peliranopi_judge.
 * written: how many bytes, at most PELIRANOPI_PURPOSE_LEN_MAX.
 * list: accepted, as after peliranopi_judge; refused, all words are 0.
 * output: accepted, the purpose stands at its start, and every other byte is as it was; refused, all bytes are as they were. */
uint32_t peliranopi_write_purpose(const uint8_t *file, size_t file_len,
                                  const uint8_t *countries, size_t countries_len, size_t line,
                                  uint32_t *list, size_t list_len,
                                  uint8_t *output, size_t output_len,
                                  size_t *written, size_t *place);

/* Checks a tracking number (15 symbols) or a label code (28): its kind, PELIRANOPI_TRACKING or PELIRANOPI_LABEL. */
uint32_t peliranopi_check_number(const uint8_t *symbols, size_t symbols_len, uint32_t *kind, size_t *place);

/* Checks a day's tracking numbers, which stand in one buffer, PELIRANOPI_TRACKING_LEN bytes each. A number that does not pass does
 * not refuse the call: its answer byte says so. The call is refused by PELIRANOPI_WRONG_LENGTH where the buffer's length is no multiple
 * of PELIRANOPI_TRACKING_LEN, then by PELIRANOPI_OUTPUT_TOO_SHORT where there are fewer answer bytes than numbers.
 * answers: accepted, byte i is what peliranopi_check_number answers for number i, counted from 0: PELIRANOPI_ACCEPTED,
 * PELIRANOPI_WRONG_SYMBOL or PELIRANOPI_WRONG_CHECK; every byte behind these is as it was. Refused, all bytes are as they were.
 * passed: how many numbers were answered PELIRANOPI_ACCEPTED; 0 where there are no numbers.
 * place: always 0. */
uint32_t peliranopi_check_numbers(const uint8_t *numbers, size_t numbers_len,
                                  uint8_t *answers, size_t answers_len,
                                  size_t *passed, size_t *place);

/* Issues the number that has this body (14 or 27 symbols).
 * written: how many bytes, 15 or 28.
 * output: accepted, the body and its check stand at its start, and every other byte is as it was; refused, all bytes are as they
 * were. */
uint32_t peliranopi_issue_number(const uint8_t *body, size_t body_len,
                                 uint8_t *output, size_t output_len,
                                 size_t *written, size_t *place);

/* Tells the carry after one more symbol (0-9 or A-Z), for a caller who takes a DPD number key by key (ISO/IEC 7064, MOD 37,36). The first
 * call is given PELIRANOPI_CARRY_START, each later one the `next` of the call before. A number of the right shape passes exactly where
 * the carry behind its last symbol is PELIRANOPI_CARRY_PASSED. A carry outside 1 to 36 is refused by PELIRANOPI_NOT_THERE, whatever the
 * key; then a key that is no symbol by PELIRANOPI_WRONG_SYMBOL.
 * next: the carry after the key, 1 to 36. The 0 of a refusal is no carry: a caller who goes on with it is refused at every further key.
 * place: always 0, since the call sees one key. */
uint32_t peliranopi_next_carry(uint32_t carry, uint8_t key, uint32_t *next, size_t *place);

/* Checks an IBAN. */
uint32_t peliranopi_check_iban(const uint8_t *symbols, size_t symbols_len, size_t *place);

/* Checks an identcode (22 digits): its length, its digits and its check digit. A 040 line needs one that passes in its field 1. */
uint32_t peliranopi_check_identcode(const uint8_t *code, size_t code_len, size_t *place);

/* One part of an identcode: where it starts in the code, and how many digits it has. */
typedef struct {
    size_t start;
    size_t length;
} peliranopi_part;

/* The six parts of an identcode, in their order. */
typedef struct {
    peliranopi_part origin;      /* the country it comes from, or the partner: 2 digits */
    peliranopi_part customer;    /* the customer's number: 5 digits */
    peliranopi_part sequence;    /* the sequential number: 8 digits */
    peliranopi_part product;     /* the code of product and process: 2 digits */
    peliranopi_part destination; /* the post code it goes to, or 0 and the country's number: 4 digits */
    peliranopi_part check;       /* the check digit */
} peliranopi_identcode_parts;

/* Checks an identcode as peliranopi_check_identcode does, and tells its parts.
 * parts: accepted, where each part stands in the code; refused, every number is 0. */
uint32_t peliranopi_read_identcode(const uint8_t *code, size_t code_len,
                                   peliranopi_identcode_parts *parts, size_t *place);

/* Issues the identcode that has this body: its parts without the check, joined (21 digits). The output has PELIRANOPI_IDENTCODE_LEN
 * bytes or more, or it is refused.
 * written: how many bytes, 22.
 * output: accepted, the body and its check digit stand at its start, and every other byte is as it was; refused, all bytes are as they
 * were. */
uint32_t peliranopi_issue_identcode(const uint8_t *body, size_t body_len,
                                    uint8_t *output, size_t output_len,
                                    size_t *written, size_t *place);

#ifdef __cplusplus
}
#endif

#endif

/* JSON, CBOR, and scripts and tapes of calls: bytes in, bytes out.
 *
 * The code behind these functions is proved (crates/sval_c); this header is written by hand. Each function is to be
 * called so, which nothing checks:
 *
 * - `input`, `tape` and `paths` point to as many bytes as their lengths say, which nobody writes during the call;
 * - `out` points to `out_length` bytes that have values, which nobody else reads or writes during the call;
 * - no pointer is null, even where the length is 0;
 * - `out` overlaps none of the others, and each length is less than 2^63;
 * - malloc, realloc and free come from one allocator, and malloc aligns a block to each power of two up to 16 that
 *   divides its size;
 * - no call is made in a signal handler, or in the forked child of a process with threads.
 *
 * Calls share nothing, so threads may make them side by side.
 */
#ifndef SVAL_H
#define SVAL_H

#include <stddef.h>
#include <stdint.h>

#ifdef __cplusplus
extern "C" {
#endif

/* What a call answers. The numbers are those of the programs in docs/SPECIFICATION.md, but for 8. */
enum sval_status {
    /* The first `written` bytes of `out` are exactly what is due, and those behind them are as they were. */
    SVAL_DONE = 0,
    /* `at` is the first line of the script, counted from 1, that is no call. */
    SVAL_BAD_LINE = 3,
    /* No value goes on with a call. `at` is its line in the script, or its number in the tape, counted from 1. */
    SVAL_BAD_CALL = 4,
    /* The calls are not one whole value. */
    SVAL_UNFINISHED = 5,
    /* A key of a map can't be a key of JSON. */
    SVAL_INVALID_KEY = 6,
    /* Text that stands for a number is none. */
    SVAL_INVALID_NUMBER = 7,
    /* `out` is too short: `written` is the number of bytes that are due. */
    SVAL_TOO_SHORT = 8,
    /* Memory was wanting. */
    SVAL_NO_MEMORY = 10,
    /* The input is not UTF-8. `at` is the length of its longest front that is. */
    SVAL_NOT_UTF8 = 12,
    /* The input is not JSON. `at` is the offset of the first byte that no JSON text could have there, or the length
     * where the text ends too early. */
    SVAL_BAD_JSON = 13,
    /* The value has text that says it is JSON, which CBOR can't hold. */
    SVAL_RAW = 14,
    /* A number has a fraction or an exponent, or isn't from -2^127 to 2^128-1. */
    SVAL_NOT_INTEGER = 15,
    /* The input is not one item of CBOR, in the profile that is read. */
    SVAL_BAD_CBOR = 16,
    /* The input is no tape. `at` is the offset of the first byte at which no call begins. */
    SVAL_BAD_TAPE = 18,
    /* The number of a style or a rule names none. */
    SVAL_BAD_CHOICE = 19,
    /* A line of the paths is no path. `at` is the line, counted from 1, or 0 where the paths are not UTF-8. */
    SVAL_BAD_PATH = 20
};

/* How JSON is written. */
enum sval_style {
    /* Without white space. */
    SVAL_COMPACT = 0,
    /* A line for each element and member, and two spaces for each level. */
    SVAL_PRETTY = 1
};

/* What becomes of the members that paths name. */
enum sval_rule {
    /* They are left out. */
    SVAL_DROP = 0,
    /* They are kept, and of the others only those on the way to them. */
    SVAL_KEEP = 1
};

/* With any status but SVAL_DONE all bytes of `out` are as they were. */
typedef struct sval_report {
    /* One of enum sval_status. */
    uint8_t status;
    /* The number of bytes that were written, or that are due; else 0. */
    size_t written;
    /* The place of a fault, where it has one; else 0. */
    uint64_t at;
} sval_report;

/* Whether the input is JSON (RFC 8259). Answers 0, 10, 12 or 13. */
sval_report sval_json_check(const uint8_t *input, size_t input_length);

/* Writes JSON without white space; `-0` as `0`. Answers 0, 8, 10, 12 or 13. */
sval_report sval_json_compact(const uint8_t *input, size_t input_length, uint8_t *out, size_t out_length);

/* Writes JSON with a line for each element and member, and two spaces for each level. Answers 0, 8, 10, 12 or 13. */
sval_report sval_json_pretty(const uint8_t *input, size_t input_length, uint8_t *out, size_t out_length);

/* Writes JSON as CBOR (RFC 8949). Answers 0, 8, 10, 12, 13 or 15. */
sval_report sval_json_to_cbor(const uint8_t *input, size_t input_length, uint8_t *out, size_t out_length);

/* Writes one item of CBOR as JSON: byte strings as arrays of numbers. Answers 0, 6, 8, 10 or 16. */
sval_report sval_cbor_to_json(const uint8_t *input, size_t input_length, uint8_t *out, size_t out_length);

/* Writes the one value that a script of calls spells as JSON. Answers 0, 3, 4, 5, 6, 7, 8 or 10. */
sval_report sval_script_to_json(const uint8_t *input, size_t input_length, uint8_t *out, size_t out_length);

/* Writes the one value that the calls of a tape spell as JSON; `style` is one of enum sval_style. A tape is calls as bytes,
 * one after another: crates/sval_tape has the format. Answers 0, 4, 5, 6, 7, 8, 10, 18 or 19. */
sval_report sval_tape_to_json(const uint8_t *tape, size_t tape_length, uint32_t style, uint8_t *out, size_t out_length);

/* Writes the one value that the calls of a tape spell as CBOR (RFC 8949). Answers 0, 4, 5, 6, 7, 8, 10, 14, 15 or 18. */
sval_report sval_tape_to_cbor(const uint8_t *tape, size_t tape_length, uint8_t *out, size_t out_length);

/* Writes JSON without the members that paths name, or with no others, and without white space; `-0` as `0`. `rule` is one of
 * enum sval_rule. `paths` is UTF-8: a path a line, each with a line feed behind it, which the last may lack. A path is labels
 * with dots between them: `user.password` names the member `password` of the member `user`, also within arrays. Answers 0, 8,
 * 10, 12, 13, 19 or 20. */
sval_report sval_json_filter(const uint8_t *input, size_t input_length, uint32_t rule, const uint8_t *paths,
                             size_t paths_length, uint8_t *out, size_t out_length);

#ifdef __cplusplus
}
#endif

#endif

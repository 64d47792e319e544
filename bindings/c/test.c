/* Rows of inputs with what is due of them, each over a buffer of each length up to what is due and a byte more; and each
 * allocation failing in turn. */
#include "sval.h"

#include <stdio.h>
#include <stdlib.h>
#include <string.h>

typedef sval_report (*call)(const uint8_t *, size_t, uint8_t *, size_t);

struct row {
    call call;
    const char *input;
    size_t input_length;
    int status;
    uint64_t at;
    const char *due;
    size_t due_length;
};

/* ---- exports with further arguments, as calls of four */

static sval_report tape_compact(const uint8_t *tape, size_t length, uint8_t *out, size_t room)
{
    return sval_tape_to_json(tape, length, SVAL_COMPACT, out, room);
}

static sval_report tape_pretty(const uint8_t *tape, size_t length, uint8_t *out, size_t room)
{
    return sval_tape_to_json(tape, length, SVAL_PRETTY, out, room);
}

static sval_report tape_in_no_style(const uint8_t *tape, size_t length, uint8_t *out, size_t room)
{
    return sval_tape_to_json(tape, length, 2, out, room);
}

static sval_report filter(const uint8_t *input, size_t length, uint32_t rule, const char *paths, uint8_t *out, size_t room)
{
    return sval_json_filter(input, length, rule, (const uint8_t *)paths, strlen(paths), out, room);
}

static sval_report drop_secrets(const uint8_t *input, size_t length, uint8_t *out, size_t room)
{
    return filter(input, length, SVAL_DROP, "user.password\r\nkey\n", out, room);
}

static sval_report keep_secrets(const uint8_t *input, size_t length, uint8_t *out, size_t room)
{
    return filter(input, length, SVAL_KEEP, "user.password\nkey", out, room);
}

static sval_report drop_nothing(const uint8_t *input, size_t length, uint8_t *out, size_t room)
{
    return filter(input, length, SVAL_DROP, "", out, room);
}

static sval_report by_no_rule(const uint8_t *input, size_t length, uint8_t *out, size_t room)
{
    return filter(input, length, 2, "", out, room);
}

static sval_report by_empty_line(const uint8_t *input, size_t length, uint8_t *out, size_t room)
{
    return filter(input, length, SVAL_DROP, "a\n\nb", out, room);
}

static sval_report by_empty_label(const uint8_t *input, size_t length, uint8_t *out, size_t room)
{
    return filter(input, length, SVAL_KEEP, "a..b\n", out, room);
}

static sval_report by_no_text(const uint8_t *input, size_t length, uint8_t *out, size_t room)
{
    return filter(input, length, SVAL_KEEP, "a\n\xff\n", out, room);
}

/* A record with the field `id`, which is 1. */
#define RECORD "\x1c\x00\x00\x00\x01\x01\x27\x00\x02id\x00\x02\x01\x2d\x00\x02id\x00\x21\x00\x00\x00"
/* A text under a tag, each with its length. */
#define TAGGED(tag, text) "\x18\x01" tag "\x00\x00\x0c\x00\x0d" text "\x0f\x19\x01" tag "\x00\x00"
#define USER "{\"user\": [{\"name\": \"a\", \"password\": \"b\"}], \"key\": {\"x\": -0}}"

#define GIVES(call, input, due) {call, input, sizeof(input) - 1, SVAL_DONE, 0, due, sizeof(due) - 1}
#define FAILS(call, input, status, at) {call, input, sizeof(input) - 1, status, at, "", 0}

static const struct row rows[] = {
    GIVES(sval_json_compact, " {\"a\" : [1, -0, 1.50e+3, \"\\u0041\\u000a\"] } ", "{\"a\":[1,0,1.50e+3,\"A\\n\"]}"),
    GIVES(sval_json_compact, "null", "null"),
    FAILS(sval_json_compact, "", SVAL_BAD_JSON, 0),
    FAILS(sval_json_compact, "[1,]", SVAL_BAD_JSON, 3),
    FAILS(sval_json_compact, "[1", SVAL_BAD_JSON, 2),
    FAILS(sval_json_compact, "\"\xff\"", SVAL_NOT_UTF8, 1),
    FAILS(sval_json_to_cbor, "[1,]\xc3", SVAL_NOT_UTF8, 4),
    GIVES(sval_json_pretty, "{\"a\" : [1, {}], \"b\": -0}", "{\n  \"a\": [\n    1,\n    {}\n  ],\n  \"b\": 0\n}"),
    FAILS(sval_json_pretty, "[1,]", SVAL_BAD_JSON, 3),
    FAILS(sval_json_pretty, "\"\xff\"", SVAL_NOT_UTF8, 1),
    GIVES(sval_json_to_cbor, "[1,\"a\"]", "\x9f\x01\x61\x61\xff"),
    GIVES(sval_json_to_cbor, "-170141183460469231731687303715884105728",
          "\xc3\x50\x7f\xff\xff\xff\xff\xff\xff\xff\xff\xff\xff\xff\xff\xff\xff\xff"),
    FAILS(sval_json_to_cbor, "[1.5]", SVAL_NOT_INTEGER, 0),
    FAILS(sval_json_to_cbor, "[01]", SVAL_BAD_JSON, 2),
    GIVES(sval_cbor_to_json, "\xbf\x61\x30\xf4\x61\x31\xf5\xff", "{\"0\":false,\"1\":true}"),
    GIVES(sval_cbor_to_json, "\x42\x00\xff", "[0,255]"),
    FAILS(sval_cbor_to_json, "\x62\xc3", SVAL_BAD_CBOR, 0),
    FAILS(sval_cbor_to_json, "", SVAL_BAD_CBOR, 0),
    FAILS(sval_cbor_to_json, "\xa1\x80\x01", SVAL_INVALID_KEY, 0),
    GIVES(sval_script_to_json, "bool true\n", "true"),
    FAILS(sval_script_to_json, "bool true\nnonsense\n", SVAL_BAD_LINE, 2),
    FAILS(sval_script_to_json, "null\nnull\n", SVAL_BAD_CALL, 2),
    FAILS(sval_script_to_json, "seq_begin -\n", SVAL_UNFINISHED, 0),
    GIVES(tape_compact, RECORD, "{\"id\":1}"),
    GIVES(tape_pretty, RECORD, "{\n  \"id\": 1\n}"),
    GIVES(sval_tape_to_cbor, RECORD, "\xbf\x62id\x01\xff"),
    FAILS(tape_compact, "", SVAL_UNFINISHED, 0),
    FAILS(tape_compact, "\x1a\x00", SVAL_UNFINISHED, 0),
    FAILS(tape_compact, "\x00\x00", SVAL_BAD_CALL, 2),
    FAILS(tape_pretty, "\x00\x30", SVAL_BAD_TAPE, 1),
    FAILS(tape_compact, "\x1b\x00\x25\x1a\x00\x1f\x2b\x26\x00\x2c\x20", SVAL_INVALID_KEY, 0),
    FAILS(tape_compact, TAGGED("\x06NUMBER", "\x01x"), SVAL_INVALID_NUMBER, 0),
    FAILS(tape_in_no_style, "", SVAL_BAD_CHOICE, 0),
    FAILS(sval_tape_to_cbor, "", SVAL_UNFINISHED, 0),
    FAILS(sval_tape_to_cbor, "\x00\x00", SVAL_BAD_CALL, 2),
    FAILS(sval_tape_to_cbor, "\x01\x02", SVAL_BAD_TAPE, 0),
    FAILS(sval_tape_to_cbor, TAGGED("\x06NUMBER", "\x01x"), SVAL_INVALID_NUMBER, 0),
    FAILS(sval_tape_to_cbor, TAGGED("\x06NUMBER", "\x03" "1.5"), SVAL_NOT_INTEGER, 0),
    FAILS(sval_tape_to_cbor, TAGGED("\x0aJSON_VALUE", "\x02[]"), SVAL_RAW, 0),
    GIVES(drop_secrets, USER, "{\"user\":[{\"name\":\"a\"}]}"),
    GIVES(keep_secrets, USER, "{\"user\":[{\"password\":\"b\"}],\"key\":{\"x\":0}}"),
    GIVES(drop_nothing, " [1, -0]", "[1,0]"),
    FAILS(drop_secrets, "[1,]", SVAL_BAD_JSON, 3),
    FAILS(keep_secrets, "\"\xff\"", SVAL_NOT_UTF8, 1),
    FAILS(by_no_rule, "[1,]", SVAL_BAD_CHOICE, 0),
    FAILS(by_empty_line, "[1,]", SVAL_BAD_PATH, 2),
    FAILS(by_empty_label, "[]", SVAL_BAD_PATH, 1),
    FAILS(by_no_text, "[]", SVAL_BAD_PATH, 0),
};

static int failed = 0;

static void expect(int holds, const struct row *row, size_t room, const char *what)
{
    if (!holds) {
        fprintf(stderr, "row %td with room %zu: %s\n", row - rows, room, what);
        failed = 1;
    }
}

static int is_filled(const uint8_t *bytes, size_t length)
{
    while (length > 0 && *bytes == 0xA5) {
        bytes++;
        length--;
    }
    return length == 0;
}

static void try_room(const struct row *row, size_t room)
{
    /* A byte more than the room, which has to stay. */
    uint8_t *out = malloc(room + 1);
    if (out == NULL) {
        exit(1);
    }
    memset(out, 0xA5, room + 1);
    sval_report report = row->call((const uint8_t *)row->input, row->input_length, out, room);
    size_t written = 0;
    if (row->status != SVAL_DONE) {
        expect(report.status == row->status && report.written == 0 && report.at == row->at, row, room, "the fault");
    } else if (room < row->due_length) {
        expect(report.status == SVAL_TOO_SHORT && report.written == row->due_length && report.at == 0, row, room,
               "too short");
    } else {
        expect(report.status == SVAL_DONE && report.written == row->due_length && report.at == 0, row, room, "done");
        expect(memcmp(out, row->due, row->due_length) == 0, row, room, "the bytes");
        written = row->due_length;
    }
    expect(is_filled(out + written, room + 1 - written), row, room, "the bytes behind");
    free(out);
}

int main(void)
{
    for (size_t i = 0; i < sizeof rows / sizeof *rows; i++) {
        for (size_t room = 0; room <= rows[i].due_length + 1; room++) {
            try_room(&rows[i], room);
        }
        if (rows[i].call == sval_json_compact) {
            sval_report report = sval_json_check((const uint8_t *)rows[i].input, rows[i].input_length);
            expect(report.status == rows[i].status && report.written == 0 && report.at == rows[i].at, &rows[i], 0,
                   "the check");
        }
    }
    if (!failed) {
        puts("c: ok");
    }
    return failed;
}

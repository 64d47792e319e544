/* Each allocation of a call failing in turn: the call answers want of memory and leaves the buffer, or does without and
 * writes what is due. Either way it gives all memory back. Linked with --wrap for malloc, realloc and free. */
#include "sval.h"

#include <stdio.h>
#include <string.h>

void *__real_malloc(size_t length);
void *__real_realloc(void *old, size_t length);
void __real_free(void *old);

/* How many allocations go well before one fails; none fails where it is negative. */
static long left = -1;
/* How many blocks are held. */
static long held = 0;

static int fails(void)
{
    return left >= 0 && left-- == 0;
}

void *__wrap_malloc(size_t length)
{
    void *block = fails() ? NULL : __real_malloc(length);
    held += block != NULL;
    return block;
}

void *__wrap_realloc(void *old, size_t length)
{
    void *block = fails() ? NULL : __real_realloc(old, length);
    held += block != NULL && old == NULL;
    return block;
}

void __wrap_free(void *old)
{
    held -= old != NULL;
    __real_free(old);
}

typedef sval_report (*call)(const uint8_t *, size_t, uint8_t *, size_t);

static uint8_t input[1 << 16], out[1 << 18], before[1 << 18], due[1 << 18];

/* How many allocations the call makes, or -1 where an answer is wrong. */
static long failures_of(call call, size_t length)
{
    memcpy(out, before, sizeof out);
    sval_report good = call(input, length, out, sizeof out);
    memcpy(due, out, sizeof due);
    for (long k = 0;; k++) {
        memcpy(out, before, sizeof out);
        left = k;
        sval_report report = call(input, length, out, sizeof out);
        int has_failed = left < 0;
        left = -1;
        /* A table that only saves time may do without memory. */
        int is_done = report.status == SVAL_DONE && report.written == good.written;
        int is_told = is_done || (has_failed && report.status == SVAL_NO_MEMORY);
        if (held != 0 || !is_told || memcmp(out, is_done ? due : before, sizeof out) != 0) {
            fprintf(stderr, "allocation %ld fails: status %u, %ld blocks are left\n", k, report.status, held);
            return -1;
        }
        if (!has_failed) {
            return k;
        }
    }
}

static sval_report check(const uint8_t *bytes, size_t length, uint8_t *unused, size_t room)
{
    (void)unused;
    (void)room;
    return sval_json_check(bytes, length);
}

static sval_report filter(const uint8_t *bytes, size_t length, uint8_t *to, size_t room)
{
    static const char paths[] = "a\nkey.a\nx.y.z\n";
    return sval_json_filter(bytes, length, SVAL_DROP, (const uint8_t *)paths, sizeof paths - 1, to, room);
}

static sval_report tape_pretty(const uint8_t *tape, size_t length, uint8_t *to, size_t room)
{
    return sval_tape_to_json(tape, length, SVAL_PRETTY, to, room);
}

int main(void)
{
    static const char part[] = "{\"key\":[1,\"text\",{\"a\":null,\"b\":[true,-12345678901234567890]}]},";
    size_t length = 0;
    memset(before, 0xA5, sizeof before);
    memcpy(out, before, sizeof out);
    input[length++] = '[';
    while (length + sizeof part < sizeof input) {
        memcpy(input + length, part, sizeof part - 1);
        length += sizeof part - 1;
    }
    input[length - 1] = ']';
    long checked = failures_of(check, length);
    long compact = failures_of(sval_json_compact, length);
    long pretty = failures_of(sval_json_pretty, length);
    long to_cbor = failures_of(sval_json_to_cbor, length);
    long filtered = failures_of(filter, length);
    sval_report cbor = sval_json_to_cbor(input, length, out, sizeof out);
    memcpy(input, out, cbor.written);
    memcpy(out, before, sizeof out);
    long from_cbor = failures_of(sval_cbor_to_json, cbor.written);
    length = 0;
    while (length + 64 < sizeof input) {
        static const char line[] = "seq_value_begin\ni64 -1\nseq_value_end\n";
        static const char begin[] = "seq_begin -\n";
        const char *text = length == 0 ? begin : line;
        memcpy(input + length, text, strlen(text));
        length += strlen(text);
    }
    memcpy(input + length, "seq_end\n", 8);
    long script = failures_of(sval_script_to_json, length + 8);
    /* A tape: a sequence without a size, of whole numbers that are 1. */
    static const uint8_t item[] = {36, 2, 1, 42};
    length = 0;
    input[length++] = 26;
    input[length++] = 0;
    while (length + sizeof item < sizeof input) {
        memcpy(input + length, item, sizeof item);
        length += sizeof item;
    }
    input[length++] = 31;
    long tape_to_json = failures_of(tape_pretty, length);
    long tape_to_cbor = failures_of(sval_tape_to_cbor, length);
    printf("c: allocations of check %ld, compact %ld, pretty %ld, to_cbor %ld, from_cbor %ld, script_to_json %ld, filter %ld, "
           "tape_to_json %ld, tape_to_cbor %ld\n",
           checked, compact, pretty, to_cbor, from_cbor, script, filtered, tape_to_json, tape_to_cbor);
    return checked <= 0 || compact <= 0 || pretty <= 0 || to_cbor <= 0 || from_cbor <= 0 || script <= 0 || filtered <= 0
           || tape_to_json <= 0 || tape_to_cbor <= 0;
}

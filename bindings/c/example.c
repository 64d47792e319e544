/* Reads JSON from standard input, and writes it without white space. */
#include "sval.h"

#include <inttypes.h>
#include <stdio.h>
#include <stdlib.h>

/* All of standard input, or a null pointer where memory is wanting. */
static uint8_t *read_all(size_t *length)
{
    size_t room = 4096;
    uint8_t *bytes = malloc(room);
    *length = 0;
    while (bytes != NULL) {
        size_t count = fread(bytes + *length, 1, room - *length, stdin);
        if (count == 0) {
            return bytes;
        }
        *length += count;
        if (*length == room) {
            room *= 2;
            uint8_t *more = realloc(bytes, room);
            if (more == NULL) {
                free(bytes);
            }
            bytes = more;
        }
    }
    return NULL;
}

static int tell(sval_report report)
{
    if (report.status == SVAL_BAD_JSON) {
        fprintf(stderr, "invalid JSON at byte %" PRIu64 "\n", report.at);
    } else if (report.status == SVAL_NOT_UTF8) {
        fprintf(stderr, "invalid UTF-8 at byte %" PRIu64 "\n", report.at);
    } else {
        fprintf(stderr, "status %u\n", report.status);
    }
    return report.status;
}

int main(void)
{
    size_t length;
    uint8_t *input = read_all(&length);
    /* JSON without white space is never longer. Of other calls `written` says how long it is, as here. */
    size_t room = length + 1;
    uint8_t *out = calloc(room, 1);
    if (input == NULL || out == NULL) {
        return SVAL_NO_MEMORY;
    }
    sval_report report = sval_json_compact(input, length, out, room);
    if (report.status == SVAL_TOO_SHORT) {
        room = report.written;
        free(out);
        out = calloc(room, 1);
        if (out == NULL) {
            return SVAL_NO_MEMORY;
        }
        report = sval_json_compact(input, length, out, room);
    }
    int status = report.status == SVAL_DONE ? 0 : tell(report);
    if (status == 0 && fwrite(out, 1, report.written, stdout) != report.written) {
        status = 1;
    }
    free(out);
    free(input);
    return status;
}

/* The reader of string and template literals of JavaScript. Every function takes any bytes, any numbers and
   memory of any size, and returns: 0, or the number of a refusal. */
#ifndef NETHRAWF_H
#define NETHRAWF_H

#include <stddef.h>
#include <stdint.h>

/* kinds of literals */
enum {
    NETHRAWF_UNDETERMINED = 0,
    NETHRAWF_STR = 1,
    NETHRAWF_NO_SUBSTITUTION_TEMPLATE = 2,
    NETHRAWF_TEMPLATE_HEAD = 3,
    NETHRAWF_TEMPLATE_MIDDLE = 4,
    NETHRAWF_TEMPLATE_TAIL = 5
};

/* kinds of faults */
enum { NETHRAWF_UNTERMINATED = 1, NETHRAWF_INVALID_ESCAPE = 2 };

/* what is asked: the first three are scans */
enum {
    NETHRAWF_STRING = 0,
    NETHRAWF_TEMPLATE = 1,
    NETHRAWF_RESUMPTION = 2,
    NETHRAWF_VALUE = 3,
    NETHRAWF_UNIT = 4,
    NETHRAWF_FAULT_COUNT = 5,
    NETHRAWF_FAULT_AT = 6
};

/* why a call is refused, besides its number 1 to 13 (docs/TEXTS.md) */
enum { NETHRAWF_NO_MEMORY = 255 };

struct nethrawf_seen {
    uint32_t kind, mark, cooked;
    size_t start, end, faults, units;
};

struct nethrawf_room {
    size_t strings, templates, records;
};

struct nethrawf_request {
    uint32_t what;
    size_t start, index;
};

/* a scan: kind, mark, start (first), end (second); a value: whether it is cooked (mark), its length (first);
   a unit: first; the number of faults: first; a fault: kind, from (first), to (second) */
struct nethrawf_response {
    uint32_t refusal, kind, mark;
    size_t first, second;
};

#ifdef __cplusplus
extern "C" {
#endif

/* Whether bytes are a text: 0, or 1, or 2 with the length of the longest well-formed prefix. */
uint32_t nethrawf_check(const uint8_t *bytes, size_t length, size_t *prefix);

/* Looks at the literal from a start, with nothing stored. */
uint32_t nethrawf_look(const uint8_t *bytes, size_t length, uint32_t scan, size_t start, struct nethrawf_seen *seen);

/* Makes one session and performs every request in its turn, as far as there is room for the responses. Values lie
   one after another in the cells; ends has where each of them ends. Cells and ends need not be cleared. */
uint32_t nethrawf_serve_units(const uint8_t *bytes, size_t length, const struct nethrawf_room *room, uint16_t *cells,
                              size_t cell_count, size_t *ends, size_t end_count, const struct nethrawf_request *requests,
                              size_t request_count, struct nethrawf_response *responses, size_t response_count);

/* The same with the values as WTF-8 bytes. */
uint32_t nethrawf_serve_wtf8(const uint8_t *bytes, size_t length, const struct nethrawf_room *room, uint8_t *cells,
                             size_t cell_count, size_t *ends, size_t end_count, const struct nethrawf_request *requests,
                             size_t request_count, struct nethrawf_response *responses, size_t response_count);

#ifdef __cplusplus
}
#endif

#endif

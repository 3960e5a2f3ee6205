/* Calls each function of kolatennis.h: worked rows byte by byte, a whole link between a host and a printer, buffers that are too short,
 * handles that hold nothing, and all of it again with each allocation failing in turn (bindings/test links it with malloc and realloc
 * wrapped, and runs it under valgrind). It prints what is wrong and how much was checked; the exit status is 1 if anything is. */
#include "kolatennis.h"
#include <stdio.h>
#include <stdlib.h>
#include <string.h>

/* ---- allocations that fail ---- */

#ifdef __cplusplus
extern "C" {
#endif
void *__real_malloc(size_t size);
void *__real_realloc(void *block, size_t size);
void *__wrap_malloc(size_t size);
void *__wrap_realloc(void *block, size_t size);
#ifdef __cplusplus
}
#endif
static unsigned long asked, failing; /* the one that fails, counted from 1; 0: none */

static int fails(void) { return ++asked == failing; }
void *__wrap_malloc(size_t size) { return fails() ? NULL : __real_malloc(size); }
void *__wrap_realloc(void *block, size_t size) { return fails() ? NULL : __real_realloc(block, size); }

/* ---- what is checked ---- */

static unsigned long checked, wrong;

static void is(int holds, const char *what, int line) {
    checked++;
    if (!holds) {
        wrong++;
        printf("line %d, allocation %lu failing: %s\n", line, failing, what);
    }
}
#define IS(condition) is(condition, #condition, __LINE__)

static const uint8_t *bytes(const char *text) { return (const uint8_t *)text; }

#define CAPACITY 4096
static uint8_t buffer[CAPACITY];
static uint8_t kept[CAPACITY];

/* A call that ran out of memory has left the buffer as it was. It is made again, and must do what it does with ample memory. */
static int last;
static int keep(void) {
    memcpy(kept, buffer, CAPACITY);
    return 1;
}
static int ran_out(int status) {
    if (status != KOLATENNIS_STATUS_MEMORY || !failing) return 0;
    IS(memcmp(kept, buffer, CAPACITY) == 0);
    return 1;
}
#define CALL(call) (keep(), last = (call), ran_out(last) ? (last = (call)) : last)

static void blank(void) { memset(buffer, 0xA5, CAPACITY); }
/* All bytes of the buffer from here on are as they were. */
static int is_blank(size_t from) {
    for (size_t at = from; at < CAPACITY; at++)
        if (buffer[at] != 0xA5) return 0;
    return 1;
}
static int holds(const void *wanted, size_t len) { return memcmp(buffer, wanted, len) == 0 && is_blank(len); }

/* ---- calls that keep nothing ---- */

struct encoded {
    const char *json, *bytes;
    size_t len;
};
#define BYTES(text) text, sizeof text - 1
static const struct encoded ENCODED[] = {
    {"[{\"line\":\"Hi\"},{\"cut\":\"full\"}]", BYTES("Hi\n\x1D\x56\x00")},
    {"[{\"size\":[8,1]},{\"line\":\"A\"}]", BYTES("\x1D\x21\x70\x41\n")},
    {"[{\"text\":\"A\"},{\"align\":\"center\"},{\"feed\":2}]", BYTES("\x41\x1B\x61\x01\x1B\x64\x02")},
    {"[{\"bars\":{\"kind\":\"ean8\",\"content\":\"5512345\"}}]", BYTES("\x1D\x6B\x44\x07\x35\x35\x31\x32\x33\x34\x35")},
    {"[{\"qr\":{\"content\":\"A/1\",\"size\":8,\"level\":\"M\"}}]", BYTES("\x1D(k\x03\x00" "1C\x08\x1D(k\x03\x00" "1E1\x1D(k\x06\x00" "1P0A/1\x1D(k\x03\x00" "1Q0")},
    {"[{\"line\":\"A\"},{\"units\":5},{\"pulse\":{\"pin\":0,\"on\":25,\"off\":250}}]", BYTES("\x41\n\x1B\x4A\x05\x1B\x70\x00\x19\xFA")},
};

struct refused {
    const char *json;
    uint32_t reason;
    size_t at;
};
static const struct refused REFUSED[] = {
    {"[]", KOLATENNIS_RECEIPT_EMPTY, KOLATENNIS_NO_PLACE},
    {"[{\"text\":\"Hi\"}]", KOLATENNIS_RECEIPT_TEXT_LEFT, KOLATENNIS_NO_PLACE},
    {"[{\"text\":\"Hi\"},{\"cut\":\"full\"}]", KOLATENNIS_RECEIPT_MID_LINE, 2},
    {"[", KOLATENNIS_RECEIPT_NOT_JSON, KOLATENNIS_NO_PLACE},
    {"[{\"line\":\"A\"},{\"fed\":1}]", KOLATENNIS_RECEIPT_BAD_SHAPE, 1},
    {"[{\"line\":\"\\t\"}]", KOLATENNIS_RECEIPT_CONTROL_BYTE, 0},
    {"[{\"line\":\"\\u6f22\"}]", KOLATENNIS_RECEIPT_NO_CHARACTER, 0},
    {"[{\"line\":\"A\"},{\"raster\":{\"scale\":\"normal\",\"x\":3,\"y\":1,\"dots\":\"101401\"}}]", KOLATENNIS_RECEIPT_REAL_TIME, 2},
    {"[{\"line\":\"A\"},{\"bars\":{\"kind\":\"code128\",\"content\":\"{B\"}}]", KOLATENNIS_RECEIPT_NOT_PRINTABLE, 2},
};

static void encodes(void) {
    for (size_t row = 0; row < sizeof ENCODED / sizeof *ENCODED; row++) {
        const struct encoded *it = &ENCODED[row];
        size_t written = 77, at = 77;
        uint32_t reason = 77;
        blank();
        IS(CALL(kolatennis_encode(NULL, bytes(it->json), strlen(it->json), buffer, CAPACITY, &written, &reason, &at)) == KOLATENNIS_STATUS_GOOD);
        IS(written == it->len && holds(it->bytes, it->len) && reason == 0 && at == KOLATENNIS_NO_PLACE);
        blank();
        IS(CALL(kolatennis_encode(NULL, bytes(it->json), strlen(it->json), buffer, it->len - 1, &written, &reason, &at)) == KOLATENNIS_STATUS_SHORT);
        IS(written == it->len && is_blank(0) && reason == 0 && at == KOLATENNIS_NO_PLACE);
        IS(CALL(kolatennis_encode(NULL, bytes(it->json), strlen(it->json), buffer, it->len, &written, &reason, &at)) == KOLATENNIS_STATUS_GOOD);
        IS(written == it->len && holds(it->bytes, it->len));
    }
    for (size_t row = 0; row < sizeof REFUSED / sizeof *REFUSED; row++) {
        const struct refused *it = &REFUSED[row];
        size_t written = 77, at = 77;
        uint32_t reason = 77;
        blank();
        IS(CALL(kolatennis_encode(NULL, bytes(it->json), strlen(it->json), buffer, CAPACITY, &written, &reason, &at)) == KOLATENNIS_STATUS_REFUSED);
        IS(written == 0 && is_blank(0) && reason == it->reason && at == it->at);
    }
}

/* ---- with options ---- */

struct encoded_with {
    kolatennis_options options;
    const char *json, *bytes;
    size_t len;
};
#define BLANKS_5 "     "
#define BLANKS_35 BLANKS_5 BLANKS_5 BLANKS_5 BLANKS_5 BLANKS_5 BLANKS_5 BLANKS_5
static const struct encoded_with ENCODED_WITH[] = {
    {{0, 0}, "[{\"pair\":[\"Tea\",\"2.10\"]}]", BYTES("Tea" BLANKS_35 "2.10\n")},
    {{512, 0}, "[{\"pair\":[\"Tea\",\"2.10\"]}]", BYTES("Tea" BLANKS_35 "2.10\n")},
    {{144, 0}, "[{\"pair\":[\"Tea\",\"2.10\"]}]", BYTES("Tea" BLANKS_5 "2.10\n")},
    {{144, '?'}, "[{\"pair\":[\"\\u6f22\",\"2.10\"]}]", BYTES("?" BLANKS_5 "  2.10\n")},
    {{1, 0}, "[{\"line\":\"A\"}]", BYTES("A\n")},
    {{1024, 0}, "[{\"line\":\"A\"}]", BYTES("A\n")},
    {{0, 0x20}, "[{\"line\":\"\\u6f22\"}]", BYTES(" \n")},
    {{0, 0x7E}, "[{\"line\":\"\\u6f22\"}]", BYTES("~\n")},
};

/* Out of range, one of them or both. */
static const kolatennis_options BAD_OPTIONS[] = {{1025, 0}, {65535, 0}, {0, 1}, {0, 0x1F}, {0, 0x7F}, {512, 255}, {1025, 0x1F}};
#define COUNT(table) (sizeof table / sizeof *table)

static void encodes_with(void) {
    size_t written = 77, at = 77;
    uint32_t reason = 77;
    for (size_t row = 0; row < COUNT(ENCODED_WITH); row++) {
        const struct encoded_with *it = &ENCODED_WITH[row];
        blank();
        IS(CALL(kolatennis_encode(&it->options, bytes(it->json), strlen(it->json), buffer, CAPACITY, &written, &reason, &at)) == KOLATENNIS_STATUS_GOOD);
        IS(written == it->len && holds(it->bytes, it->len) && reason == 0 && at == KOLATENNIS_NO_PLACE);
        blank();
        IS(CALL(kolatennis_encode(&it->options, bytes(it->json), strlen(it->json), buffer, it->len - 1, &written, &reason, &at)) == KOLATENNIS_STATUS_SHORT);
        IS(written == it->len && is_blank(0) && reason == 0 && at == KOLATENNIS_NO_PLACE);
    }
    for (size_t row = 0; row < COUNT(REFUSED); row++) {
        const struct refused *it = &REFUSED[row];
        const kolatennis_options none = {0, 0};
        written = at = reason = 77;
        blank();
        IS(CALL(kolatennis_encode(&none, bytes(it->json), strlen(it->json), buffer, CAPACITY, &written, &reason, &at)) == KOLATENNIS_STATUS_REFUSED);
        IS(written == 0 && is_blank(0) && reason == it->reason && at == it->at);
    }
    for (size_t row = 0; row < COUNT(BAD_OPTIONS); row++) {
        written = at = reason = 77;
        blank();
        IS(kolatennis_encode(&BAD_OPTIONS[row], bytes("[{\"line\":\"A\"}]"), 14, buffer, CAPACITY, &written, &reason, &at) == KOLATENNIS_STATUS_REFUSED);
        IS(written == 0 && is_blank(0) && reason == KOLATENNIS_RECEIPT_BAD_OPTIONS && at == KOLATENNIS_NO_PLACE);
    }
}

typedef int text_call(const uint8_t *, size_t, uint8_t *, size_t, size_t *);

static void gives(text_call *call, const char *stream, size_t len, const char *text, int status, int line) {
    size_t written = 77, wanted = strlen(text);
    blank();
    is(CALL(call(bytes(stream), len, buffer, CAPACITY, &written)) == status && written == wanted && holds(text, wanted), text, line);
    if (!wanted) return;
    blank();
    is(CALL(call(bytes(stream), len, buffer, wanted - 1, &written)) == KOLATENNIS_STATUS_SHORT && written == wanted && is_blank(0), "too short", line);
    is(CALL(call(bytes(stream), len, buffer, wanted, &written)) == status && written == wanted && holds(text, wanted), "just long enough", line);
}
#define GIVES(call, stream, text, status) gives(call, stream, sizeof stream - 1, text, status, __LINE__)

/* The width that the next calls are given. */
static uint16_t dots;
static int paper(const uint8_t *stream, size_t len, uint8_t *out, size_t capacity, size_t *written) { return kolatennis_paper(dots, stream, len, out, capacity, written); }
static int paper_text(const uint8_t *stream, size_t len, uint8_t *out, size_t capacity, size_t *written) { return kolatennis_paper_text(dots, stream, len, out, capacity, written); }
static int picture(const uint8_t *stream, size_t len, uint8_t *out, size_t capacity, size_t *written) { return kolatennis_picture(dots, stream, len, out, capacity, written); }

static void lists_and_prints(void) {
    dots = 0;
    GIVES(kolatennis_listing, "", "end 0 pending 0\n", KOLATENNIS_STATUS_GOOD);
    GIVES(kolatennis_listing, "\x1B@Hi\n\x1DV\x00", "0 init\n2 char 48\n3 char 69\n4 lf\n5 cut 00\nend 8 pending 0\n", KOLATENNIS_STATUS_GOOD);
    GIVES(kolatennis_listing, "\x1B@Hi\n\x1DV", "0 init\n2 char 48\n3 char 69\n4 lf\nend 7 pending 2\n", KOLATENNIS_STATUS_REFUSED);
    GIVES(kolatennis_listing, "\x1B@\x1B#", "0 init\nfault 3 2 UnknownCommand\n", KOLATENNIS_STATUS_REFUSED);
    GIVES(paper, "", "", KOLATENNIS_STATUS_GOOD);
    GIVES(paper, "\x1B@Hi\n\x1DV\x00", "row left Hi\nfeed 1\ncut full\n", KOLATENNIS_STATUS_GOOD);
    GIVES(paper, "\x1B" "E\x01" "A\x1B" "E\x00" "B\n", "row left [A,1,1,1,0,0]A[A,1,1,0,0,0]B\nfeed 1\n", KOLATENNIS_STATUS_GOOD);
    GIVES(paper, "\n\x1DV", "feed 1\nend 3 pending 2\n", KOLATENNIS_STATUS_REFUSED);
    GIVES(paper, "\nA\x06", "feed 1\nfault 2 1 UnknownByte\n", KOLATENNIS_STATUS_REFUSED);
    GIVES(paper_text, "", "", KOLATENNIS_STATUS_GOOD);
    GIVES(paper_text, "\x1B" "E\x01" "Caf\x82\x1Bt\x13\xD5\n", "row left Caf\xC3\xA9\xE2\x82\xAC\nfeed 1\n", KOLATENNIS_STATUS_GOOD);
    GIVES(paper_text, "\x1Bt\x06\xD5\n\x06", "row left \xEF\xBF\xBD\nfeed 1\nfault 5 1 UnknownByte\n", KOLATENNIS_STATUS_REFUSED);
}

/* The document of an empty paper, and of one with a row and a feed, where a line and the paper have so many dots. */
#define DOCUMENT(line, paper, height, body) \
    "<svg xmlns=\"http://www.w3.org/2000/svg\" version=\"1.1\" width=\"" paper "\" height=\"" height "\" viewBox=\"0 0 " paper " " height "\" xml:space=\"preserve\">\n" \
    "<style type=\"text/css\">\n" \
    ".paper{fill:#fff}\n" \
    "text{font-family:\"DejaVu Sans Mono\",Menlo,Consolas,monospace;font-size:20px;white-space:pre}\n" \
    ".B{font-size:15px}\n" \
    ".bold{font-weight:bold}\n" \
    ".white{fill:#fff}\n" \
    ".second{fill:#c00}\n" \
    ".middle{text-anchor:middle}\n" \
    ".bars path,.raster path{stroke:#000;shape-rendering:crispEdges}\n" \
    ".raster{clip-path:url(#line)}\n" \
    ".box,.cut circle,.cut path{fill:none;stroke:#000;stroke-width:2}\n" \
    ".dashes{stroke-dasharray:8 6}\n" \
    ".last{fill:#a00}\n" \
    "</style>\n" \
    "<clipPath id=\"line\"><path d=\"M0 0h" line "v8190H0z\"/></clipPath>\n" \
    "<rect class=\"paper\" width=\"" paper "\" height=\"" height "\"/>\n" body "</svg>\n"
#define HI "<g class=\"row\" transform=\"translate(32,50)\"><text x=\"0\" textLength=\"24\">Hi</text></g>\n<g class=\"feed\"/>\n"

static void draws(void) {
    dots = 0;
    GIVES(picture, "", DOCUMENT("512", "576", "64", ""), KOLATENNIS_STATUS_GOOD);
    GIVES(picture, "Hi\n", DOCUMENT("512", "576", "94", HI), KOLATENNIS_STATUS_GOOD);
}

/* ---- in lines of a width ---- */

/* Eight characters, each 12 dots wide. */
#define EIGHT "ABCDEFGH"
#define FORTY EIGHT EIGHT EIGHT EIGHT EIGHT

static void prints_at(void) {
    dots = 1;
    GIVES(paper, "AB\n", "row left A\nfeed 1\nrow left B\nfeed 1\n", KOLATENNIS_STATUS_GOOD);
    GIVES(paper_text, "AB\n", "row left A\nfeed 1\nrow left B\nfeed 1\n", KOLATENNIS_STATUS_GOOD);
    GIVES(picture, "", DOCUMENT("1", "65", "64", ""), KOLATENNIS_STATUS_GOOD);
    dots = 24;
    GIVES(paper, "ABC\n\x06", "row left AB\nfeed 1\nrow left C\nfeed 1\nfault 4 1 UnknownByte\n", KOLATENNIS_STATUS_REFUSED);
    GIVES(paper_text, "\x1B" "E\x01" "A\x82" "C\n", "row left A\xC3\xA9\nfeed 1\nrow left C\nfeed 1\n", KOLATENNIS_STATUS_GOOD);
    GIVES(picture, "Hi\n", DOCUMENT("24", "88", "94", HI), KOLATENNIS_STATUS_GOOD);
    dots = 1024; /* 85 characters */
    GIVES(paper, FORTY FORTY "ABCDEF\n", "row left " FORTY FORTY "ABCDE\nfeed 1\nrow left F\nfeed 1\n", KOLATENNIS_STATUS_GOOD);
    GIVES(paper_text, FORTY FORTY "ABCDEF\n", "row left " FORTY FORTY "ABCDE\nfeed 1\nrow left F\nfeed 1\n", KOLATENNIS_STATUS_GOOD);
    GIVES(picture, "", DOCUMENT("1024", "1088", "64", ""), KOLATENNIS_STATUS_GOOD);
    for (dots = 0; dots <= 512; dots += 512) { /* 42 characters */
        GIVES(paper, FORTY "ABC\n", "row left " FORTY "AB\nfeed 1\nrow left C\nfeed 1\n", KOLATENNIS_STATUS_GOOD);
        GIVES(paper_text, FORTY "ABC\n", "row left " FORTY "AB\nfeed 1\nrow left C\nfeed 1\n", KOLATENNIS_STATUS_GOOD);
        GIVES(picture, "Hi\n", DOCUMENT("512", "576", "94", HI), KOLATENNIS_STATUS_GOOD);
    }
    for (int turn = 0; turn < 2; turn++) {
        dots = turn ? 1025 : 65535;
        GIVES(paper, "A\n", "", KOLATENNIS_STATUS_REFUSED);
        GIVES(paper_text, "A\n", "", KOLATENNIS_STATUS_REFUSED);
        GIVES(picture, "A\n", "", KOLATENNIS_STATUS_REFUSED);
    }
}

static uint8_t limit;
static int image(const uint8_t *picture, size_t len, uint8_t *out, size_t capacity, size_t *written) { return kolatennis_image(dots, limit, picture, len, out, capacity, written); }

#define RASTER(x, y, bits) "{\"raster\":{\"scale\":\"normal\",\"x\":" #x ",\"y\":" #y ",\"dots\":\"" bits "\"}}\n"

static void makes_entries(void) {
    dots = limit = 0;
    GIVES(image, "P1 8 2 11110000 00001111", RASTER(1, 2, "f00f"), KOLATENNIS_STATUS_GOOD);
    GIVES(image, "P4 8 2 \xF0\x0F", RASTER(1, 2, "f00f"), KOLATENNIS_STATUS_GOOD);
    /* seven sixteenths of what the first dot lost go to the second, which is white then; a threshold looks at each by itself */
    GIVES(image, "P2 2 1 255 100 100", RASTER(1, 1, "80"), KOLATENNIS_STATUS_GOOD);
    limit = 100;
    GIVES(image, "P2 2 1 255 100 100", RASTER(1, 1, "00"), KOLATENNIS_STATUS_GOOD);
    limit = 101;
    GIVES(image, "P2 2 1 255 100 100", RASTER(1, 1, "c0"), KOLATENNIS_STATUS_GOOD);
    limit = 255;
    GIVES(image, "P6 1 1 255 \xFE\xFE\xFE", RASTER(1, 1, "80"), KOLATENNIS_STATUS_GOOD);
    dots = 8;
    GIVES(image, "P1 16 2 11111111111111111111111111111111", RASTER(1, 1, "ff"), KOLATENNIS_STATUS_GOOD);
    dots = 1024;
    GIVES(image, "P1 16 2 11111111111111111111111111111111", RASTER(2, 2, "ffffffff"), KOLATENNIS_STATUS_GOOD);
    GIVES(image, "", "refused 1 NotPicture\n", KOLATENNIS_STATUS_REFUSED);
    GIVES(image, "GIF89a", "refused 1 NotPicture\n", KOLATENNIS_STATUS_REFUSED);
    GIVES(image, "P1 8 2 1", "refused 6 CutShort 8\n", KOLATENNIS_STATUS_REFUSED);
    dots = 1025;
    GIVES(image, "P1 8 2 11110000 00001111", "", KOLATENNIS_STATUS_REFUSED);
    dots = 65535;
    GIVES(image, "", "", KOLATENNIS_STATUS_REFUSED);
}

static void is_too_long(void) {
    size_t len = 16777217, written = 77, at = 77;
    uint32_t reason = 77;
    uint8_t *text = (uint8_t *)__real_malloc(len);
    memset(text, ' ', len);
    blank();
    IS(kolatennis_encode(NULL, text, len, buffer, CAPACITY, &written, &reason, &at) == KOLATENNIS_STATUS_REFUSED);
    IS(written == 0 && is_blank(0) && reason == KOLATENNIS_RECEIPT_TOO_LONG && at == KOLATENNIS_NO_PLACE);
    IS(kolatennis_encode(NULL, text, len - 1, buffer, CAPACITY, &written, &reason, &at) == KOLATENNIS_STATUS_REFUSED && reason == KOLATENNIS_RECEIPT_NOT_JSON);
    IS(kolatennis_listing(text, len, buffer, CAPACITY, &written) == KOLATENNIS_STATUS_REFUSED && written == 14 && holds("refused input\n", 14));
    const kolatennis_options none = {0, 0};
    blank();
    IS(kolatennis_encode(&none, text, len, buffer, CAPACITY, &written, &reason, &at) == KOLATENNIS_STATUS_REFUSED);
    IS(written == 0 && is_blank(0) && reason == KOLATENNIS_RECEIPT_TOO_LONG && at == KOLATENNIS_NO_PLACE);
    IS(kolatennis_paper(24, text, len, buffer, CAPACITY, &written) == KOLATENNIS_STATUS_REFUSED && written == 14 && holds("refused input\n", 14));
    blank();
    IS(kolatennis_image(0, 0, text, len, buffer, CAPACITY, &written) == KOLATENNIS_STATUS_REFUSED && written == 14 && holds("refused input\n", 14));
    blank();
    IS(kolatennis_image(0, 0, text, len - 1, buffer, CAPACITY, &written) == KOLATENNIS_STATUS_REFUSED && written == 21 && holds("refused 1 NotPicture\n", 21));
    blank();
    IS(kolatennis_image(1025, 0, text, len, buffer, CAPACITY, &written) == KOLATENNIS_STATUS_REFUSED && written == 0 && is_blank(0));
    free(text);
}

/* ---- a host ---- */

static void stands(kolatennis_host *host, uint32_t state, uint32_t next_mark, size_t records) {
    uint32_t found = 77, mark = 77;
    size_t count = 77;
    IS(kolatennis_host_state(host, &found) == KOLATENNIS_STATUS_GOOD && found == state);
    IS(kolatennis_host_next_mark(host, &mark) == KOLATENNIS_STATUS_GOOD && mark == next_mark);
    IS(kolatennis_host_records(host, &count) == KOLATENNIS_STATUS_GOOD && count == records);
}

static void puts_out(kolatennis_host *host, const char *wanted, size_t len) {
    size_t written = 77;
    bool has = false;
    IS(kolatennis_host_has_out(host, &has) == KOLATENNIS_STATUS_GOOD && has == (len != 0));
    blank();
    /* a few bytes first, then the rest */
    IS(kolatennis_host_take_out(host, buffer, 3, &written) == KOLATENNIS_STATUS_GOOD && written == (len < 3 ? len : 3) && is_blank(written));
    size_t first = written;
    IS(kolatennis_host_take_out(host, buffer + first, CAPACITY - first, &written) == KOLATENNIS_STATUS_GOOD && first + written == len && holds(wanted, len));
    IS(kolatennis_host_has_out(host, &has) == KOLATENNIS_STATUS_GOOD && !has);
}

static void hears(kolatennis_host *host, const char *answer, size_t len, size_t wanted, uint32_t event, size_t number) {
    size_t consumed = 77, found = 77;
    uint32_t kind = 77;
    IS(kolatennis_host_heard(host, bytes(answer), len, &consumed, &kind, &found) == KOLATENNIS_STATUS_GOOD);
    IS(consumed == wanted && kind == event && found == number);
}

static int submits(kolatennis_host *host, const char *json, uint32_t *reason, size_t *at) {
    return CALL(kolatennis_host_submit(host, NULL, bytes(json), strlen(json), reason, at));
}

static int submits_with(kolatennis_host *host, kolatennis_options options, const char *json, uint32_t *reason, size_t *at) {
    return CALL(kolatennis_host_submit(host, &options, bytes(json), strlen(json), reason, at));
}

static void submits_with_options(void) {
    kolatennis_host host = KOLATENNIS_INIT;
    uint32_t reason = 77;
    size_t at = 77;
    const kolatennis_options narrow = {144, '?'}, none = {0, 0};
    const char *receipt = "[{\"pair\":[\"\\u6f22\",\"2.10\"]}]";
    IS(CALL(kolatennis_host_new(&host, 0)) == KOLATENNIS_STATUS_GOOD);
    IS(submits_with(&host, narrow, receipt, &reason, &at) == KOLATENNIS_STATUS_REFUSED && reason == KOLATENNIS_HOST_NOT_READY && at == KOLATENNIS_NO_PLACE);
    IS(CALL(kolatennis_host_link_up(&host, &reason)) == KOLATENNIS_STATUS_GOOD);
    hears(&host, BYTES("\x37\"0000\x00"), 7, KOLATENNIS_EVENT_OPENED, 0);
    puts_out(&host, BYTES("\x1D(H\x06\x00" "000000"));
    for (size_t row = 0; row < COUNT(BAD_OPTIONS); row++) {
        reason = at = 77;
        IS(submits_with(&host, BAD_OPTIONS[row], "[{\"line\":\"A\"}]", &reason, &at) == KOLATENNIS_STATUS_REFUSED);
        IS(reason == KOLATENNIS_RECEIPT_BAD_OPTIONS && at == KOLATENNIS_NO_PLACE);
    }
    IS(submits_with(&host, none, receipt, &reason, &at) == KOLATENNIS_STATUS_REFUSED && reason == KOLATENNIS_RECEIPT_NO_CHARACTER && at == 0);
    stands(&host, KOLATENNIS_STATE_READY, 1, 0);
    puts_out(&host, "", 0);
    IS(submits_with(&host, narrow, receipt, &reason, &at) == KOLATENNIS_STATUS_GOOD && reason == 0 && at == KOLATENNIS_NO_PLACE);
    IS(submits_with(&host, none, "[{\"line\":\"Hi\"}]", &reason, &at) == KOLATENNIS_STATUS_GOOD && reason == 0 && at == KOLATENNIS_NO_PLACE);
    stands(&host, KOLATENNIS_STATE_SENDING, 3, 0);
    puts_out(&host, BYTES("\x1B@?" BLANKS_5 "  2.10\n\x1D(H\x06\x00" "000001" "\x1B@Hi\n\x1D(H\x06\x00" "000002"));
    kolatennis_host_free(&host);
    reason = at = 77;
    IS(submits_with(&host, none, receipt, &reason, &at) == KOLATENNIS_STATUS_EMPTY && reason == 0 && at == KOLATENNIS_NO_PLACE);
    IS(submits_with(&host, BAD_OPTIONS[0], receipt, &reason, &at) == KOLATENNIS_STATUS_EMPTY);
}

static void goes_through_a_link(void) {
    kolatennis_host host = KOLATENNIS_INIT;
    uint32_t reason = 77;
    size_t at = 77;
    const char *receipt = "[{\"line\":\"Hi\"}]";
    IS(CALL(kolatennis_host_resume(&host, 5, 3)) == KOLATENNIS_STATUS_GOOD);
    stands(&host, KOLATENNIS_STATE_DOWN, 5, 3);
    IS(CALL(kolatennis_host_nudge(&host, &reason)) == KOLATENNIS_STATUS_REFUSED && reason == KOLATENNIS_HOST_NOT_READY);
    IS(submits(&host, receipt, &reason, &at) == KOLATENNIS_STATUS_REFUSED && reason == KOLATENNIS_HOST_NOT_READY && at == KOLATENNIS_NO_PLACE);
    IS(CALL(kolatennis_host_link_up(&host, &reason)) == KOLATENNIS_STATUS_GOOD && reason == 0);
    IS(CALL(kolatennis_host_link_up(&host, &reason)) == KOLATENNIS_STATUS_REFUSED && reason == KOLATENNIS_HOST_ALREADY_UP);
    stands(&host, KOLATENNIS_STATE_OPENING, 6, 3);
    puts_out(&host, BYTES("\x1D(H\x06\x00" "000005"));
    IS(CALL(kolatennis_host_nudge(&host, &reason)) == KOLATENNIS_STATUS_GOOD && reason == 0);
    puts_out(&host, BYTES("\x1D(H\x06\x00" "000006"));
    IS(CALL(kolatennis_host_ask(&host, 1, &reason)) == KOLATENNIS_STATUS_REFUSED && reason == KOLATENNIS_HOST_NOT_READY);
    hears(&host, BYTES("\x37\"0004\x00\x12"), 7, KOLATENNIS_EVENT_LATE, 4);
    hears(&host, BYTES("\x37\"abcd\x00\x12"), 7, KOLATENNIS_EVENT_LATE, 0);
    hears(&host, BYTES("\x14\x00\x00\x0F\x12"), 4, KOLATENNIS_EVENT_CONDITION, 0x1400000F);
    stands(&host, KOLATENNIS_STATE_OPENING, 7, 3);
    hears(&host, BYTES("\x37\"00"), 4, KOLATENNIS_EVENT_NONE, 0);
    hears(&host, BYTES("05\x00\x12"), 3, KOLATENNIS_EVENT_OPENED, 0);
    hears(&host, BYTES("\x12"), 1, KOLATENNIS_EVENT_STATUS, 0x12);
    hears(&host, BYTES("\x18"), 1, KOLATENNIS_EVENT_NONE, 0);
    hears(&host, BYTES("\x00\x0C\x00\x12"), 3, KOLATENNIS_EVENT_CONDITION, 0x18000C00);
    stands(&host, KOLATENNIS_STATE_READY, 7, 3);
    IS(CALL(kolatennis_host_ask(&host, 0, &reason)) == KOLATENNIS_STATUS_REFUSED && reason == KOLATENNIS_HOST_NO_KIND);
    IS(CALL(kolatennis_host_ask(&host, 5, &reason)) == KOLATENNIS_STATUS_REFUSED && reason == KOLATENNIS_HOST_NO_KIND);
    for (int kind = 1; kind <= 4; kind++) IS(CALL(kolatennis_host_ask(&host, kind, &reason)) == KOLATENNIS_STATUS_GOOD && reason == 0);
    puts_out(&host, BYTES("\x10\x04\x01\x10\x04\x02\x10\x04\x03\x10\x04\x04"));
    IS(submits(&host, "[{\"fed\":1}]", &reason, &at) == KOLATENNIS_STATUS_REFUSED && reason == KOLATENNIS_RECEIPT_BAD_SHAPE && at == 0);
    for (int count = 0; count < 4; count++)
        IS(submits(&host, receipt, &reason, &at) == KOLATENNIS_STATUS_GOOD && reason == 0 && at == KOLATENNIS_NO_PLACE);
    IS(submits(&host, receipt, &reason, &at) == KOLATENNIS_STATUS_REFUSED && reason == KOLATENNIS_HOST_IN_FLIGHT_FULL);
    stands(&host, KOLATENNIS_STATE_SENDING, 11, 3);
    puts_out(&host, BYTES("\x1B@Hi\n\x1D(H\x06\x00" "000007" "\x1B@Hi\n\x1D(H\x06\x00" "000008" "\x1B@Hi\n\x1D(H\x06\x00" "000009" "\x1B@Hi\n\x1D(H\x06\x00" "00000A"));
    hears(&host, BYTES("\x37\"0007\x00\x37\"0008\x00"), 7, KOLATENNIS_EVENT_RECORDED, 3);
    hears(&host, BYTES("\x37\"0008\x00"), 7, KOLATENNIS_EVENT_RECORDED, 4);
    stands(&host, KOLATENNIS_STATE_SENDING, 11, 5);
    hears(&host, BYTES("\x13"), 0, KOLATENNIS_EVENT_BAD_ANSWER, 0);
    stands(&host, KOLATENNIS_STATE_DOWN, 11, 5);
    hears(&host, BYTES("\x13\x13"), 2, KOLATENNIS_EVENT_NONE, 0);
    IS(CALL(kolatennis_host_link_up(&host, &reason)) == KOLATENNIS_STATUS_GOOD);
    hears(&host, BYTES("\x37\"000A\x00"), 7, KOLATENNIS_EVENT_RECORDED, 6);
    hears(&host, BYTES("\x37\"0009\x00"), 7, KOLATENNIS_EVENT_LATE, 9);
    stands(&host, KOLATENNIS_STATE_OPENING, 12, 7);
    IS(kolatennis_host_link_down(&host) == KOLATENNIS_STATUS_GOOD);
    puts_out(&host, "", 0);
    kolatennis_host_free(&host);
    IS(CALL(kolatennis_host_new(&host, 1679616)) == KOLATENNIS_STATUS_GOOD);
    IS(CALL(kolatennis_host_link_up(&host, &reason)) == KOLATENNIS_STATUS_REFUSED && reason == KOLATENNIS_HOST_MARKS_USED_UP);
    stands(&host, KOLATENNIS_STATE_DOWN, 1679616, 0);
    kolatennis_host_free(&host);
    kolatennis_host_free(&host);
}

static void holds_no_host(void) {
    kolatennis_host host = KOLATENNIS_INIT;
    uint32_t reason = 77, number = 77, event = 77;
    size_t at = 77, count = 77, consumed = 77;
    bool has = true;
    IS(kolatennis_host_link_up(&host, &reason) == KOLATENNIS_STATUS_EMPTY && reason == 0);
    reason = 77;
    IS(kolatennis_host_nudge(&host, &reason) == KOLATENNIS_STATUS_EMPTY && reason == 0);
    reason = 77;
    IS(kolatennis_host_ask(&host, 1, &reason) == KOLATENNIS_STATUS_EMPTY && reason == 0);
    reason = 77;
    IS(kolatennis_host_submit(&host, NULL, bytes("[]"), 2, &reason, &at) == KOLATENNIS_STATUS_EMPTY && reason == 0 && at == KOLATENNIS_NO_PLACE);
    IS(kolatennis_host_link_down(&host) == KOLATENNIS_STATUS_EMPTY);
    blank();
    IS(kolatennis_host_take_out(&host, buffer, CAPACITY, &count) == KOLATENNIS_STATUS_EMPTY && count == 0 && is_blank(0));
    IS(kolatennis_host_has_out(&host, &has) == KOLATENNIS_STATUS_EMPTY && !has);
    IS(kolatennis_host_heard(&host, bytes("\x12"), 1, &consumed, &event, &count) == KOLATENNIS_STATUS_EMPTY && consumed == 0 && event == KOLATENNIS_EVENT_NONE && count == 0);
    IS(kolatennis_host_state(&host, &number) == KOLATENNIS_STATUS_EMPTY && number == KOLATENNIS_STATE_DOWN);
    number = 77;
    IS(kolatennis_host_next_mark(&host, &number) == KOLATENNIS_STATUS_EMPTY && number == 0);
    count = 77;
    IS(kolatennis_host_records(&host, &count) == KOLATENNIS_STATUS_EMPTY && count == 0);
    kolatennis_host_free(&host);
}

/* ---- a printer ---- */

static void feeds(kolatennis_printer *printer, const char *stream, size_t len, size_t wanted, uint32_t stop, uint32_t reason, size_t place) {
    size_t consumed = 77, at = 77, done = 0;
    uint32_t kind = 77, why = 77;
    IS(kolatennis_printer_feed(printer, bytes(stream), len, &consumed, &kind, &why, &at) == KOLATENNIS_STATUS_GOOD);
    if (kind == KOLATENNIS_STOP_MEMORY && failing) {
        IS(why == 0 && at == KOLATENNIS_NO_PLACE);
        done = consumed;
        IS(kolatennis_printer_feed(printer, bytes(stream) + done, len - done, &consumed, &kind, &why, &at) == KOLATENNIS_STATUS_GOOD);
    }
    IS(done + consumed == wanted && kind == stop && why == reason && (at == place || at + done == place));
}

static void answers(kolatennis_printer *printer, const char *wanted, size_t len) {
    size_t written = 77;
    blank();
    IS(kolatennis_printer_take_answer(printer, buffer, 6, &written) == KOLATENNIS_STATUS_SHORT && written == 7 && is_blank(0));
    IS(kolatennis_printer_take_answer(printer, buffer, CAPACITY, &written) == KOLATENNIS_STATUS_GOOD && written == len && holds(wanted, len));
}

static void has_paper(kolatennis_printer *printer, const char *text) {
    size_t written = 77, len = strlen(text);
    blank();
    if (len) IS(CALL(kolatennis_printer_paper(printer, buffer, len - 1, &written)) == KOLATENNIS_STATUS_SHORT && written == len && is_blank(0));
    IS(CALL(kolatennis_printer_paper(printer, buffer, CAPACITY, &written)) == KOLATENNIS_STATUS_GOOD && written == len && holds(text, len));
}

static void prints(void) {
    kolatennis_printer printer = KOLATENNIS_INIT;
    kolatennis_sensors fine = {false, false, false}, open = {true, false, false}, near = {false, true, false}, out = {false, false, true};
    IS(CALL(kolatennis_printer_new(&printer, &fine, 0)) == KOLATENNIS_STATUS_GOOD);
    has_paper(&printer, "");
    answers(&printer, "", 0);
    feeds(&printer, BYTES("Hi\n\x1DV\x00\x10\x04\x01" "A"), 10, KOLATENNIS_STOP_ALL, 0, KOLATENNIS_NO_PLACE);
    has_paper(&printer, "row left Hi\nfeed 1\ncut full\n");
    answers(&printer, BYTES("\x12"));
    answers(&printer, "", 0);
    feeds(&printer, BYTES("B\x1B#"), 2, KOLATENNIS_STOP_FAULT, KOLATENNIS_FAULT_UNKNOWN_COMMAND, 2);
    feeds(&printer, BYTES("#\n"), 2, KOLATENNIS_STOP_ALL, 0, KOLATENNIS_NO_PLACE);
    feeds(&printer, BYTES("\x06"), 0, KOLATENNIS_STOP_FAULT, KOLATENNIS_FAULT_UNKNOWN_BYTE, 0);
    feeds(&printer, BYTES("\x1B" "a\x03"), 2, KOLATENNIS_STOP_FAULT, KOLATENNIS_FAULT_BAD_PARAMETER, 2);
    feeds(&printer, BYTES("\x1D" "kD\x01"), 3, KOLATENNIS_STOP_FAULT, KOLATENNIS_FAULT_BAD_BARCODE, 3);
    feeds(&printer, BYTES("\x1Dv0\x00\x81"), 4, KOLATENNIS_STOP_FAULT, KOLATENNIS_FAULT_BAD_SIZE, 4);
    /* two answers wait, in their order, and stay where the paper is torn off */
    feeds(&printer, BYTES("\x10\x04\x01\x1D(H\x06\x00" "00ABCD"), 14, KOLATENNIS_STOP_ALL, 0, KOLATENNIS_NO_PLACE);
    IS(kolatennis_printer_tear_off(&printer) == KOLATENNIS_STATUS_GOOD);
    has_paper(&printer, "");
    answers(&printer, BYTES("\x12"));
    answers(&printer, BYTES("\x37\"ABCD\x00"));
    answers(&printer, "", 0);
    IS(kolatennis_printer_set_condition(&printer, &open) == KOLATENNIS_STATUS_GOOD);
    feeds(&printer, BYTES("\x10\x04\x02" "A"), 3, KOLATENNIS_STOP_OFFLINE, 0, KOLATENNIS_NO_PLACE);
    answers(&printer, BYTES("\x16"));
    IS(kolatennis_printer_set_condition(&printer, &near) == KOLATENNIS_STATUS_GOOD);
    feeds(&printer, BYTES("\x10\x04\x04"), 3, KOLATENNIS_STOP_ALL, 0, KOLATENNIS_NO_PLACE);
    answers(&printer, BYTES("\x1E"));
    IS(kolatennis_printer_set_condition(&printer, &out) == KOLATENNIS_STATUS_GOOD);
    feeds(&printer, BYTES("\x10\x04\x04"), 3, KOLATENNIS_STOP_ALL, 0, KOLATENNIS_NO_PLACE);
    answers(&printer, BYTES("\x72"));
    for (int count = 0; count < 16; count++) feeds(&printer, BYTES("\x10\x04\x01"), 3, KOLATENNIS_STOP_ALL, 0, KOLATENNIS_NO_PLACE);
    feeds(&printer, BYTES("\x10\x04\x01"), 2, KOLATENNIS_STOP_ANSWERS_FULL, 0, KOLATENNIS_NO_PLACE);
    kolatennis_printer_free(&printer);
    IS(CALL(kolatennis_printer_new(&printer, &near, 0)) == KOLATENNIS_STATUS_GOOD);
    feeds(&printer, BYTES("\x10\x04\x04" "A"), 4, KOLATENNIS_STOP_ALL, 0, KOLATENNIS_NO_PLACE);
    answers(&printer, BYTES("\x1E"));
    kolatennis_printer_free(&printer);
    IS(CALL(kolatennis_printer_new(&printer, &out, 0)) == KOLATENNIS_STATUS_GOOD);
    feeds(&printer, BYTES("\x10\x04\x02" "A"), 3, KOLATENNIS_STOP_OFFLINE, 0, KOLATENNIS_NO_PLACE);
    answers(&printer, BYTES("\x32"));
    kolatennis_printer_free(&printer);
    IS(CALL(kolatennis_printer_new(&printer, &fine, 0)) == KOLATENNIS_STATUS_GOOD);
    answers(&printer, "", 0);
    kolatennis_printer_free(&printer);
    kolatennis_printer_free(&printer);
}

static void prints_on_a_width(void) {
    kolatennis_printer printer = KOLATENNIS_INIT;
    kolatennis_sensors fine = {false, false, false}, open = {true, false, false};
    IS(kolatennis_printer_new(&printer, &fine, 1025) == KOLATENNIS_STATUS_REFUSED);
    IS(kolatennis_printer_tear_off(&printer) == KOLATENNIS_STATUS_EMPTY);
    IS(CALL(kolatennis_printer_new(&printer, &fine, 24)) == KOLATENNIS_STATUS_GOOD);
    feeds(&printer, BYTES("ABC\n"), 4, KOLATENNIS_STOP_ALL, 0, KOLATENNIS_NO_PLACE);
    has_paper(&printer, "row left AB\nfeed 1\nrow left C\nfeed 1\n");
    kolatennis_printer_free(&printer);
    /* where the width is out of range it holds nothing */
    IS(kolatennis_printer_new(&printer, &open, 65535) == KOLATENNIS_STATUS_REFUSED);
    IS(kolatennis_printer_tear_off(&printer) == KOLATENNIS_STATUS_EMPTY);
    IS(CALL(kolatennis_printer_new(&printer, &fine, 0)) == KOLATENNIS_STATUS_GOOD);
    feeds(&printer, BYTES(FORTY "ABC\n"), 44, KOLATENNIS_STOP_ALL, 0, KOLATENNIS_NO_PLACE);
    has_paper(&printer, "row left " FORTY "AB\nfeed 1\nrow left C\nfeed 1\n");
    kolatennis_printer_free(&printer);
    IS(CALL(kolatennis_printer_new(&printer, &fine, 1)) == KOLATENNIS_STATUS_GOOD);
    feeds(&printer, BYTES("AB\n"), 3, KOLATENNIS_STOP_ALL, 0, KOLATENNIS_NO_PLACE);
    has_paper(&printer, "row left A\nfeed 1\nrow left B\nfeed 1\n");
    kolatennis_printer_free(&printer);
    IS(CALL(kolatennis_printer_new(&printer, &open, 1024)) == KOLATENNIS_STATUS_GOOD);
    feeds(&printer, BYTES("\x10\x04\x02" "A"), 3, KOLATENNIS_STOP_OFFLINE, 0, KOLATENNIS_NO_PLACE);
    answers(&printer, BYTES("\x16"));
    kolatennis_printer_free(&printer);
}

static void holds_no_printer(void) {
    kolatennis_printer printer = KOLATENNIS_INIT;
    kolatennis_sensors fine = {false, false, false};
    size_t consumed = 77, at = 77, written = 77;
    uint32_t stop = 77, reason = 77;
    IS(kolatennis_printer_feed(&printer, bytes("A"), 1, &consumed, &stop, &reason, &at) == KOLATENNIS_STATUS_EMPTY);
    IS(consumed == 0 && stop == KOLATENNIS_STOP_ALL && reason == 0 && at == KOLATENNIS_NO_PLACE);
    blank();
    IS(kolatennis_printer_take_answer(&printer, buffer, CAPACITY, &written) == KOLATENNIS_STATUS_EMPTY && written == 0 && is_blank(0));
    written = 77;
    IS(kolatennis_printer_paper(&printer, buffer, CAPACITY, &written) == KOLATENNIS_STATUS_EMPTY && written == 0 && is_blank(0));
    IS(kolatennis_printer_set_condition(&printer, &fine) == KOLATENNIS_STATUS_EMPTY);
    IS(kolatennis_printer_tear_off(&printer) == KOLATENNIS_STATUS_EMPTY);
    kolatennis_printer_free(&printer);
}

/* ---- a till ---- */

static const char HI_RECEIPT[] = "[{\"line\":\"Hi\"}]";
#define HI_LINE "queued 0200005b7b226c696e65223a224869227d5d\n"
#define TRIED_LINE "tried 000000000000000100000004\n"
#define RECORDED_LINE "recorded 000000000000000100000004\n"
/* as lines of before say it */
#define RECORDED_BEFORE "recorded 0000000000000001\n"

static int queues(kolatennis_till *till, const char *json, uint32_t *reason, size_t *at) {
    return CALL(kolatennis_till_queue(till, NULL, bytes(json), strlen(json), reason, at));
}

static int delivers(kolatennis_till *till, const char *copy, uint32_t *reason, size_t *at) {
    return CALL(kolatennis_till_deliver(till, 3, bytes(copy), strlen(copy), 100, reason, at));
}

static kolatennis_asked asks(kolatennis_till *till) {
    kolatennis_asked asked = {77, 77, 77, 77};
    IS(kolatennis_till_asks(till, &asked) == KOLATENNIS_STATUS_GOOD);
    return asked;
}

static void asks_for(kolatennis_till *till, uint32_t ask, size_t number, int line) {
    kolatennis_asked asked = asks(till);
    is(asked.ask == ask && asked.note == KOLATENNIS_NOTE_NONE && asked.fault == 0 && asked.number == number, "asks for something else", line);
}
#define ASKS(till, ask, number) asks_for(till, KOLATENNIS_ASK_##ask, number, __LINE__)

static void notes(kolatennis_till *till, uint32_t note, size_t number, uint32_t fault, int line) {
    kolatennis_asked asked = asks(till);
    is(asked.ask == KOLATENNIS_ASK_TELL && asked.note == note && asked.number == number && asked.fault == fault, "tells something else", line);
    IS(kolatennis_till_told(till) == KOLATENNIS_STATUS_GOOD);
}
#define NOTES(till, note, number, fault) notes(till, KOLATENNIS_NOTE_##note, number, fault, __LINE__)

/* Keeps the entry that it asks for, which has this line. */
static void appends(kolatennis_till *till, const char *wanted, int line) {
    size_t written = 77, len = strlen(wanted);
    ASKS(till, APPEND, 0);
    blank();
    is(CALL(kolatennis_till_append(till, buffer, len - 1, &written)) == KOLATENNIS_STATUS_SHORT && written == len && is_blank(0), "too short", line);
    is(CALL(kolatennis_till_append(till, buffer, CAPACITY, &written)) == KOLATENNIS_STATUS_GOOD && written == len && holds(wanted, len), wanted, line);
    IS(kolatennis_till_appended(till, true) == KOLATENNIS_STATUS_GOOD);
}
#define APPENDS(till, wanted) appends(till, wanted, __LINE__)

static void takes_out(kolatennis_till *till, const char *wanted, size_t len) {
    size_t written = 77;
    ASKS(till, PUT, 0);
    blank();
    IS(kolatennis_till_take_out(till, buffer, 3, &written) == KOLATENNIS_STATUS_GOOD && written == 3 && is_blank(3));
    IS(kolatennis_till_take_out(till, buffer + 3, CAPACITY - 3, &written) == KOLATENNIS_STATUS_GOOD && 3 + written == len && holds(wanted, len));
}

static void came(kolatennis_till *till, const char *answer, size_t len, size_t wanted) {
    size_t consumed = 77;
    IS(kolatennis_till_came(till, bytes(answer), len, &consumed) == KOLATENNIS_STATUS_GOOD && consumed == wanted);
}

static void hangs_up(kolatennis_till *till) {
    ASKS(till, HANG_UP, 0);
    IS(kolatennis_till_hung_up(till) == KOLATENNIS_STATUS_GOOD);
}

static void knows(kolatennis_till *till, size_t receipts, uint32_t next_mark, uint32_t state, size_t count) {
    size_t found = 77;
    uint32_t mark = 77, stands = 77;
    IS(kolatennis_till_receipts(till, &found) == KOLATENNIS_STATUS_GOOD && found == receipts);
    IS(kolatennis_till_next_mark(till, &mark) == KOLATENNIS_STATUS_GOOD && mark == next_mark);
    IS(kolatennis_till_state(till, 1, &stands, &found) == KOLATENNIS_STATUS_GOOD && stands == state && found == count);
    IS(kolatennis_till_state(till, receipts + 1, &stands, &found) == KOLATENNIS_STATUS_GOOD && stands == KOLATENNIS_STANDS_UNKNOWN && found == 0);
    IS(kolatennis_till_state(till, 0, &stands, &found) == KOLATENNIS_STATUS_GOOD && stands == KOLATENNIS_STANDS_UNKNOWN && found == 0);
}

static int opens(kolatennis_till *till, const char *lines, uint32_t *reason, size_t *at) {
    return CALL(kolatennis_till_open(till, bytes(lines), strlen(lines), reason, at));
}

/* A till of a receipt that waits, which was tried so many times. */
static kolatennis_till waits(int tries) {
    kolatennis_till till = KOLATENNIS_INIT;
    uint32_t reason = 77;
    size_t at = 77;
    IS(opens(&till, tries ? HI_LINE TRIED_LINE : HI_LINE, &reason, &at) == KOLATENNIS_STATUS_GOOD && reason == 0 && at == KOLATENNIS_NO_PLACE);
    return till;
}

/* The printer is asked to tell its condition unasked, before the opening marks and before a receipt. */
#define REPORTS "\x1D" "a\x0E"
#define OPENINGS_FROM_0 REPORTS "\x1D(H\x06\x00" "000000" "\x1D(H\x06\x00" "000001" "\x1D(H\x06\x00" "000002"
#define OPENINGS_FROM_4 REPORTS "\x1D(H\x06\x00" "000004" "\x1D(H\x06\x00" "000005" "\x1D(H\x06\x00" "000006"

static void takes_a_receipt(void) {
    kolatennis_till till = KOLATENNIS_INIT;
    uint32_t reason = 77, next = 77;
    size_t at = 77, written = 77;
    IS(CALL(kolatennis_till_new(&till)) == KOLATENNIS_STATUS_GOOD);
    knows(&till, 0, 0, KOLATENNIS_STANDS_UNKNOWN, 0);
    ASKS(&till, NOTHING, 0);
    IS(delivers(&till, "", &reason, &at) == KOLATENNIS_STATUS_REFUSED && reason == KOLATENNIS_TILL_NOTHING_WAITS && at == KOLATENNIS_NO_PLACE);
    for (size_t row = 0; row < COUNT(REFUSED); row++) {
        reason = at = 77;
        IS(queues(&till, REFUSED[row].json, &reason, &at) == KOLATENNIS_STATUS_REFUSED && reason == REFUSED[row].reason && at == REFUSED[row].at);
    }
    for (size_t row = 0; row < COUNT(BAD_OPTIONS); row++) {
        reason = at = 77;
        IS(CALL(kolatennis_till_queue(&till, &BAD_OPTIONS[row], bytes(HI_RECEIPT), 15, &reason, &at)) == KOLATENNIS_STATUS_REFUSED);
        IS(reason == KOLATENNIS_RECEIPT_BAD_OPTIONS && at == KOLATENNIS_NO_PLACE);
    }
    blank();
    IS(CALL(kolatennis_till_append(&till, buffer, CAPACITY, &written)) == KOLATENNIS_STATUS_REFUSED && written == 0 && is_blank(0));
    IS(queues(&till, HI_RECEIPT, &reason, &at) == KOLATENNIS_STATUS_GOOD && reason == 0 && at == KOLATENNIS_NO_PLACE);
    IS(queues(&till, HI_RECEIPT, &reason, &at) == KOLATENNIS_STATUS_REFUSED && reason == KOLATENNIS_TILL_BUSY);
    IS(delivers(&till, "", &reason, &at) == KOLATENNIS_STATUS_REFUSED && reason == KOLATENNIS_TILL_BUSY);
    IS(CALL(kolatennis_till_raise(&till, 9, &reason, &next)) == KOLATENNIS_STATUS_REFUSED && reason == KOLATENNIS_TILL_BUSY && next == 0);
    APPENDS(&till, HI_LINE);
    NOTES(&till, QUEUED, 1, 0);
    ASKS(&till, NOTHING, 0);
    knows(&till, 1, 0, KOLATENNIS_STANDS_WAITING, 0);
    const kolatennis_options narrow = {144, '?'};
    IS(CALL(kolatennis_till_queue(&till, &narrow, bytes("[{\"line\":\"\\u6f22\"}]"), 19, &reason, &at)) == KOLATENNIS_STATUS_GOOD);
    APPENDS(&till, "queued 00903f5b7b226c696e65223a225c7536663232227d5d\n");
    NOTES(&till, QUEUED, 2, 0);
    IS(CALL(kolatennis_till_raise(&till, 36, &reason, &next)) == KOLATENNIS_STATUS_GOOD && reason == 0 && next == 0);
    APPENDS(&till, "raised 0000002400000000\n");
    NOTES(&till, RAISED, 0, 0);
    IS(CALL(kolatennis_till_raise(&till, 35, &reason, &next)) == KOLATENNIS_STATUS_REFUSED && reason == KOLATENNIS_TILL_MARK_REUSED && next == 36);
    IS(CALL(kolatennis_till_raise(&till, 1679615, &reason, &next)) == KOLATENNIS_STATUS_REFUSED && reason == KOLATENNIS_TILL_MARK_TOO_HIGH && next == 1679614);
    knows(&till, 2, 36, KOLATENNIS_STANDS_WAITING, 0);
    /* a receipt that waits is cancelled, once */
    IS(CALL(kolatennis_till_cancel(&till, 0, &reason)) == KOLATENNIS_STATUS_REFUSED && reason == KOLATENNIS_TILL_NOT_TAKEN);
    IS(CALL(kolatennis_till_cancel(&till, 3, &reason)) == KOLATENNIS_STATUS_REFUSED && reason == KOLATENNIS_TILL_NOT_TAKEN);
    IS(CALL(kolatennis_till_cancel(&till, 1, &reason)) == KOLATENNIS_STATUS_GOOD && reason == 0);
    IS(CALL(kolatennis_till_cancel(&till, 2, &reason)) == KOLATENNIS_STATUS_REFUSED && reason == KOLATENNIS_TILL_BUSY);
    APPENDS(&till, "cancelled 0000000000000001\n");
    NOTES(&till, CANCELLED, 1, 0);
    IS(CALL(kolatennis_till_cancel(&till, 1, &reason)) == KOLATENNIS_STATUS_REFUSED && reason == KOLATENNIS_TILL_CANCELLED);
    uint32_t stands = 77;
    IS(CALL(kolatennis_till_state(&till, 1, &stands, &at)) == KOLATENNIS_STATUS_GOOD && stands == KOLATENNIS_STANDS_CANCELLED && at == 0);
    /* an entry that may not be kept */
    IS(queues(&till, HI_RECEIPT, &reason, &at) == KOLATENNIS_STATUS_GOOD);
    IS(kolatennis_till_appended(&till, false) == KOLATENNIS_STATUS_GOOD);
    NOTES(&till, NOT_KEPT, 0, 0);
    ASKS(&till, NOTHING, 0);
    IS(queues(&till, HI_RECEIPT, &reason, &at) == KOLATENNIS_STATUS_REFUSED && reason == KOLATENNIS_TILL_FAILED);
    kolatennis_till_free(&till);
    kolatennis_till_free(&till);
}

static int queues_with(kolatennis_till *till, const char *key, uint32_t *reason, size_t *at) {
    return CALL(kolatennis_till_queue_keyed(till, NULL, bytes(HI_RECEIPT), 15, bytes(key), strlen(key), reason, at));
}

#define SIXTY_FOUR FORTY "ABCDEFGHIJKLMNOPQRSTUVWX"
#define KEY_LINE "key 73616c652d37\n"

static void takes_keys(void) {
    kolatennis_till till = KOLATENNIS_INIT;
    uint32_t reason = 77;
    size_t at = 77;
    static const char *const NO_KEYS[] = {"", " ", "sale 7", "\x7F", "\xC3\xA9", SIXTY_FOUR "Y"};
    IS(CALL(kolatennis_till_new(&till)) == KOLATENNIS_STATUS_GOOD);
    for (size_t row = 0; row < COUNT(NO_KEYS); row++) {
        reason = at = 77;
        IS(queues_with(&till, NO_KEYS[row], &reason, &at) == KOLATENNIS_STATUS_REFUSED && reason == KOLATENNIS_TILL_BAD_KEY && at == KOLATENNIS_NO_PLACE);
        ASKS(&till, NOTHING, 0);
    }
    IS(CALL(kolatennis_till_queue_keyed(&till, NULL, bytes("["), 1, bytes("a"), 1, &reason, &at)) == KOLATENNIS_STATUS_REFUSED && reason == KOLATENNIS_RECEIPT_NOT_JSON);
    IS(CALL(kolatennis_till_queue_keyed(&till, &BAD_OPTIONS[0], bytes("[]"), 2, bytes("a"), 1, &reason, &at)) == KOLATENNIS_STATUS_REFUSED && reason == KOLATENNIS_RECEIPT_BAD_OPTIONS);
    /* a key that is known adds nothing, and another one is another receipt's */
    IS(queues_with(&till, "sale-7", &reason, &at) == KOLATENNIS_STATUS_GOOD && reason == 0 && at == KOLATENNIS_NO_PLACE);
    IS(queues_with(&till, "sale-7", &reason, &at) == KOLATENNIS_STATUS_REFUSED && reason == KOLATENNIS_TILL_BUSY);
    APPENDS(&till, KEY_LINE);
    APPENDS(&till, HI_LINE);
    NOTES(&till, QUEUED, 1, 0);
    IS(queues_with(&till, "sale-7", &reason, &at) == KOLATENNIS_STATUS_GOOD);
    NOTES(&till, QUEUED, 1, 0);
    IS(queues_with(&till, SIXTY_FOUR, &reason, &at) == KOLATENNIS_STATUS_GOOD);
    IS(CALL(kolatennis_till_append(&till, buffer, CAPACITY, &at)) == KOLATENNIS_STATUS_GOOD && at == 133 && !memcmp(buffer, "key 41", 6));
    IS(kolatennis_till_appended(&till, true) == KOLATENNIS_STATUS_GOOD);
    APPENDS(&till, HI_LINE);
    NOTES(&till, QUEUED, 2, 0);
    ASKS(&till, NOTHING, 0);
    kolatennis_till_free(&till);
    /* a key whose receipt never came is void: the next receipt hasn't got it */
    IS(opens(&till, HI_LINE KEY_LINE, &reason, &at) == KOLATENNIS_STATUS_GOOD);
    IS(queues(&till, HI_RECEIPT, &reason, &at) == KOLATENNIS_STATUS_GOOD);
    APPENDS(&till, "raised 0000000000000000\n");
    APPENDS(&till, HI_LINE);
    NOTES(&till, QUEUED, 2, 0);
    IS(queues_with(&till, "sale-7", &reason, &at) == KOLATENNIS_STATUS_GOOD);
    APPENDS(&till, KEY_LINE);
    APPENDS(&till, HI_LINE);
    NOTES(&till, QUEUED, 3, 0);
    kolatennis_till_free(&till);
    IS(opens(&till, KEY_LINE HI_LINE KEY_LINE, &reason, &at) == KOLATENNIS_STATUS_REFUSED && reason == KOLATENNIS_TILL_DAMAGED && at == 2);
    IS(opens(&till, "key \n", &reason, &at) == KOLATENNIS_STATUS_REFUSED && reason == KOLATENNIS_TILL_DAMAGED && at == 0);
    IS(opens(&till, "key 20\n", &reason, &at) == KOLATENNIS_STATUS_REFUSED && reason == KOLATENNIS_TILL_DAMAGED && at == 0);
    IS(opens(&till, "key 7\n", &reason, &at) == KOLATENNIS_STATUS_REFUSED && reason == KOLATENNIS_TILL_DAMAGED && at == 0);
}

static void delivers_a_receipt(void) {
    kolatennis_till till = waits(0);
    uint32_t reason = 77;
    size_t at = 77;
    knows(&till, 1, 0, KOLATENNIS_STANDS_WAITING, 0);
    IS(delivers(&till, "\x7F", &reason, &at) == KOLATENNIS_STATUS_REFUSED && reason == KOLATENNIS_TILL_BAD_COPY && at == KOLATENNIS_NO_PLACE);
    IS(delivers(&till, FORTY "ABC", &reason, &at) == KOLATENNIS_STATUS_REFUSED && reason == KOLATENNIS_TILL_BAD_COPY);
    IS(delivers(&till, "COPY", &reason, &at) == KOLATENNIS_STATUS_GOOD && reason == 0 && at == KOLATENNIS_NO_PLACE);
    ASKS(&till, CONNECT, 0);
    /* what it doesn't ask for changes nothing */
    IS(kolatennis_till_told(&till) == KOLATENNIS_STATUS_GOOD && kolatennis_till_hung_up(&till) == KOLATENNIS_STATUS_GOOD);
    IS(kolatennis_till_appended(&till, true) == KOLATENNIS_STATUS_GOOD && kolatennis_till_link_ended(&till, KOLATENNIS_LINK_ENDED) == KOLATENNIS_STATUS_GOOD);
    came(&till, BYTES("\x12\x12"), 2);
    ASKS(&till, CONNECT, 0);
    IS(kolatennis_till_connected(&till, false) == KOLATENNIS_STATUS_GOOD);
    NOTES(&till, NO_LINK, 1, 0);
    knows(&till, 1, 0, KOLATENNIS_STANDS_WAITING, 0);
    IS(delivers(&till, "COPY", &reason, &at) == KOLATENNIS_STATUS_GOOD);
    IS(kolatennis_till_connected(&till, true) == KOLATENNIS_STATUS_GOOD);
    APPENDS(&till, TRIED_LINE);
    if (asks(&till).ask == KOLATENNIS_ASK_PUT) {
        takes_out(&till, BYTES(OPENINGS_FROM_0));
        ASKS(&till, WAIT, 100);
        for (uint32_t why = 0; why < 2000; why++)
            if (why <= KOLATENNIS_LINK_ENDED - 1 || why > KOLATENNIS_LINK_TIMED_OUT) IS(kolatennis_till_link_ended(&till, why) == KOLATENNIS_STATUS_REFUSED);
        came(&till, BYTES("\x37\"00"), 4);
        ASKS(&till, WAIT, 96);
        came(&till, BYTES("00\x00\x37\"0001\x00"), 3);
    }
    if (asks(&till).ask == KOLATENNIS_ASK_PUT) {
        takes_out(&till, BYTES(REPORTS "\x1B@Hi\n\x1D(H\x06\x00" "000003"));
        ASKS(&till, WAIT, 93);
        came(&till, BYTES("\x37\"0001\x00\x37\"0002\x00\x37\"0003\x00"), 21);
        APPENDS(&till, RECORDED_LINE);
        hangs_up(&till);
        NOTES(&till, RECORDED, 1, 0);
        knows(&till, 1, 4, KOLATENNIS_STANDS_RECORDED, 0);
    } else {
        /* out of memory for the bytes that are put */
        IS(failing);
        hangs_up(&till);
        NOTES(&till, WAITING, 1, KOLATENNIS_STATUS_MEMORY);
        knows(&till, 1, 4, KOLATENNIS_STANDS_WAITING, 1);
    }
    ASKS(&till, NOTHING, 0);
    kolatennis_till_free(&till);
}

/* The link ends, for each reason that there is; the receipt is tried again, with the line of a copy. */
static void tries_a_receipt(void) {
    static const uint32_t WHY[] = {
        KOLATENNIS_LINK_ENDED, KOLATENNIS_LINK_READ_FAULT, KOLATENNIS_LINK_WRITE_FAULT, KOLATENNIS_LINK_TIMED_OUT, KOLATENNIS_LINK_BAD_ANSWER, KOLATENNIS_LINK_TOO_MANY_ANSWERS,
    };
    for (size_t row = 0; row < COUNT(WHY); row++) {
        kolatennis_till till = waits(1);
        uint32_t reason = 77;
        size_t at = 77;
        knows(&till, 1, 4, KOLATENNIS_STANDS_WAITING, 1);
        IS(delivers(&till, "COPY", &reason, &at) == KOLATENNIS_STATUS_GOOD && kolatennis_till_connected(&till, true) == KOLATENNIS_STATUS_GOOD);
        APPENDS(&till, "tried 000000000000000100000008\n");
        if (asks(&till).ask == KOLATENNIS_ASK_PUT) {
            takes_out(&till, BYTES(OPENINGS_FROM_4));
            if (WHY[row] <= KOLATENNIS_LINK_TIMED_OUT) IS(kolatennis_till_link_ended(&till, WHY[row]) == KOLATENNIS_STATUS_GOOD);
            else if (WHY[row] == KOLATENNIS_LINK_BAD_ANSWER) came(&till, BYTES("\xFF"), 0);
            else came(&till, BYTES("\x37\"0006\x00"), 7);
        }
        if (asks(&till).ask == KOLATENNIS_ASK_PUT) {
            takes_out(&till, BYTES(REPORTS "\x1B@\x1B" "a\x01\x1B" "E\x01" "COPY\n\x1B" "E\x00\x1B" "a\x00" "Hi\n\x1D(H\x06\x00" "000007"));
            uint8_t many[200];
            size_t consumed = 77;
            memset(many, 0x12, sizeof many);
            for (size_t left = 93; left; left--) IS(kolatennis_till_came(&till, many, 1, &consumed) == KOLATENNIS_STATUS_GOOD && consumed == 1);
        }
        hangs_up(&till);
        int ran_out = failing && asks(&till).fault == KOLATENNIS_STATUS_MEMORY;
        NOTES(&till, WAITING, 1, ran_out ? (uint32_t)KOLATENNIS_STATUS_MEMORY : WHY[row]);
        knows(&till, 1, 8, KOLATENNIS_STANDS_WAITING, 2);
        kolatennis_till_free(&till);
    }
}

static bool is_paused(kolatennis_till *till) {
    bool paused = true;
    IS(kolatennis_till_is_paused(till, &paused) == KOLATENNIS_STATUS_GOOD);
    return paused;
}

/* The printer says that it prints nothing, and why, each time that this changes; once it is online, a link that ends ends as any other. */
static void tells_pauses(void) {
    static const struct {
        const char *block;
        uint32_t why;
    } ROWS[] = {
        {"\x18\x00\x0C\x00", KOLATENNIS_PAUSE_PAPER_ENDED}, {"\x38\x00\x0C\x00", KOLATENNIS_PAUSE_PAPER_ENDED}, {"\x38\x00\x00\x00", KOLATENNIS_PAUSE_COVER_OPEN}, {"\x18\x00\x00\x00", KOLATENNIS_PAUSE_OFFLINE},
    };
    for (size_t row = 0; row < COUNT(ROWS); row++)
        for (int goes_on = 0; goes_on < 2; goes_on++) {
            kolatennis_till till = waits(1);
            uint32_t reason = 77;
            size_t at = 77;
            IS(!is_paused(&till));
            IS(delivers(&till, "", &reason, &at) == KOLATENNIS_STATUS_GOOD && kolatennis_till_connected(&till, true) == KOLATENNIS_STATUS_GOOD);
            APPENDS(&till, "tried 000000000000000100000008\n");
            if (asks(&till).ask == KOLATENNIS_ASK_PUT) {
                takes_out(&till, BYTES(OPENINGS_FROM_4));
                came(&till, BYTES("\x10\x00\x00\x00"), 4);
                ASKS(&till, WAIT, 96);
                IS(!is_paused(&till));
                came(&till, ROWS[row].block, 4, 4);
                NOTES(&till, PAUSED, 1, ROWS[row].why);
                ASKS(&till, WAIT, 92);
                IS(is_paused(&till));
                came(&till, ROWS[row].block, 4, 4);
                ASKS(&till, WAIT, 88);
                if (goes_on) {
                    came(&till, BYTES("\x10\x00\x00\x00"), 4);
                    ASKS(&till, WAIT, 84);
                    IS(!is_paused(&till));
                }
                IS(kolatennis_till_link_ended(&till, KOLATENNIS_LINK_TIMED_OUT) == KOLATENNIS_STATUS_GOOD);
            }
            hangs_up(&till);
            if (failing && asks(&till).fault == KOLATENNIS_STATUS_MEMORY) NOTES(&till, WAITING, 1, KOLATENNIS_STATUS_MEMORY);
            else if (goes_on) NOTES(&till, WAITING, 1, KOLATENNIS_LINK_TIMED_OUT);
            else NOTES(&till, STILL_PAUSED, 1, ROWS[row].why);
            IS(!is_paused(&till));
            knows(&till, 1, 8, KOLATENNIS_STANDS_WAITING, 2);
            kolatennis_till_free(&till);
        }
}

struct damaged {
    const char *lines;
    size_t at;
};
static const struct damaged DAMAGED[] = {
    {"\n", 0}, {"x\n", 0}, {"queued \n", 0}, {"queued 0200\n", 0}, {"queued 0000005b5d\n", 0}, {"queued 0401005b5d\n", 0}, {"queued 0200015b5d\n", 0},
    {"queued 0200005b5\n", 0}, {"queued  0200005b5d\n", 0}, {"Queued 0200005b5d\n", 0}, {"queued 0200005b5d\r\n", 0}, {HI_LINE "\n", 1}, {HI_LINE HI_LINE "quey", 2},
    {HI_LINE "tried 00000000000000010000000", 1}, {HI_LINE "tried 000000000000000100000004", 1}, {HI_LINE "tried 000000000000000000000004\n", 1},
    {HI_LINE "tried 000000000000000200000004\n" HI_LINE, 1}, {HI_LINE "tried 000000000000000100000000\n", 1}, {HI_LINE "tried 0000000000000001\n", 1},
    {HI_LINE RECORDED_LINE, 1}, {HI_LINE TRIED_LINE TRIED_LINE, 2}, {HI_LINE TRIED_LINE RECORDED_LINE RECORDED_LINE HI_LINE "x\n", 3},
    {HI_LINE RECORDED_BEFORE, 1}, {HI_LINE TRIED_LINE "recorded 00000000000000010000\n", 2}, {HI_LINE TRIED_LINE "recorded 000000000000000100000005\n", 2},
    {HI_LINE TRIED_LINE "raised 0000000500000005\n", 2}, {"raised 0000000300000002\n", 0}, {"raised 00000003000000\n", 0}, {"raised 000000030000000300\n", 0},
    {HI_LINE TRIED_LINE "raised 00000003\n", 2}, {"raised 0000003\n", 0}, {"raised 000000003\n", 0}, {RECORDED_LINE, 0}, {"recorded 00000001\n", 0},
    {HI_LINE HI_LINE HI_LINE HI_LINE HI_LINE HI_LINE "recorded 0000000000000006\n" HI_LINE HI_LINE, 6},
};

static void opens_entries(void) {
    kolatennis_till till = KOLATENNIS_INIT;
    uint32_t reason = 77;
    size_t at = 77;
    for (size_t row = 0; row < COUNT(DAMAGED); row++) {
        reason = at = 77;
        IS(opens(&till, DAMAGED[row].lines, &reason, &at) == KOLATENNIS_STATUS_REFUSED && reason == KOLATENNIS_TILL_DAMAGED);
        is(at == DAMAGED[row].at, DAMAGED[row].lines, (int)row);
        IS(kolatennis_till_told(&till) == KOLATENNIS_STATUS_EMPTY);
    }
    IS(opens(&till, HI_LINE TRIED_LINE RECORDED_LINE "raised 00000010\n" HI_LINE, &reason, &at) == KOLATENNIS_STATUS_GOOD && reason == 0 && at == KOLATENNIS_NO_PLACE);
    knows(&till, 2, 16, KOLATENNIS_STANDS_RECORDED, 0);
    kolatennis_till_free(&till);
    IS(opens(&till, HI_LINE TRIED_LINE RECORDED_BEFORE "raised 0000001000000010\n", &reason, &at) == KOLATENNIS_STATUS_GOOD);
    knows(&till, 1, 16, KOLATENNIS_STANDS_RECORDED, 0);
    kolatennis_till_free(&till);
    IS(opens(&till, "raised 0019A100\n" HI_LINE, &reason, &at) == KOLATENNIS_STATUS_GOOD);
    IS(delivers(&till, "", &reason, &at) == KOLATENNIS_STATUS_REFUSED && reason == KOLATENNIS_HOST_MARKS_USED_UP && at == KOLATENNIS_NO_PLACE);
    kolatennis_till_free(&till);
    IS(opens(&till, "queued 0200005b7b22666564223a317d5d\n", &reason, &at) == KOLATENNIS_STATUS_GOOD);
    IS(delivers(&till, "", &reason, &at) == KOLATENNIS_STATUS_REFUSED && reason == KOLATENNIS_RECEIPT_BAD_SHAPE && at == 0);
    kolatennis_till_free(&till);
}

static void holds_no_till(void) {
    kolatennis_till till = KOLATENNIS_INIT;
    kolatennis_asked asked = {77, 77, 77, 77};
    uint32_t reason = 77, number = 77;
    size_t at = 77, count = 77;
    IS(queues(&till, HI_RECEIPT, &reason, &at) == KOLATENNIS_STATUS_EMPTY && reason == 0 && at == KOLATENNIS_NO_PLACE);
    reason = at = 77;
    IS(delivers(&till, "", &reason, &at) == KOLATENNIS_STATUS_EMPTY && reason == 0 && at == KOLATENNIS_NO_PLACE);
    reason = 77;
    IS(kolatennis_till_raise(&till, 1, &reason, &number) == KOLATENNIS_STATUS_EMPTY && reason == 0 && number == 0);
    reason = 77;
    IS(kolatennis_till_cancel(&till, 1, &reason) == KOLATENNIS_STATUS_EMPTY && reason == 0);
    IS(kolatennis_till_asks(&till, &asked) == KOLATENNIS_STATUS_EMPTY && asked.ask == KOLATENNIS_ASK_NOTHING && asked.note == KOLATENNIS_NOTE_NONE && asked.fault == 0 && asked.number == 0);
    blank();
    IS(kolatennis_till_append(&till, buffer, CAPACITY, &count) == KOLATENNIS_STATUS_EMPTY && count == 0 && is_blank(0));
    IS(kolatennis_till_appended(&till, true) == KOLATENNIS_STATUS_EMPTY && kolatennis_till_connected(&till, true) == KOLATENNIS_STATUS_EMPTY);
    count = 77;
    IS(kolatennis_till_take_out(&till, buffer, CAPACITY, &count) == KOLATENNIS_STATUS_EMPTY && count == 0 && is_blank(0));
    count = 77;
    IS(kolatennis_till_came(&till, bytes("A"), 1, &count) == KOLATENNIS_STATUS_EMPTY && count == 0);
    IS(kolatennis_till_link_ended(&till, KOLATENNIS_LINK_ENDED) == KOLATENNIS_STATUS_EMPTY);
    IS(kolatennis_till_hung_up(&till) == KOLATENNIS_STATUS_EMPTY && kolatennis_till_told(&till) == KOLATENNIS_STATUS_EMPTY);
    count = 77;
    IS(kolatennis_till_receipts(&till, &count) == KOLATENNIS_STATUS_EMPTY && count == 0);
    count = 77;
    IS(kolatennis_till_state(&till, 1, &number, &count) == KOLATENNIS_STATUS_EMPTY && number == KOLATENNIS_STANDS_UNKNOWN && count == 0);
    IS(kolatennis_till_next_mark(&till, &number) == KOLATENNIS_STATUS_EMPTY && number == 0);
    bool paused = true;
    IS(kolatennis_till_is_paused(&till, &paused) == KOLATENNIS_STATUS_EMPTY && !paused);
    kolatennis_till_free(&till);
}

/* ---- results stay in their places ---- */

static uint64_t rooms[4][5];
/* A place for a result, with eight bytes before it and some after it. */
static uint64_t *place(int room) {
    memset(rooms[room], 0xC3, sizeof rooms[room]);
    return rooms[room] + 1;
}
static size_t *count_at(int room) { return (size_t *)place(room); }
static uint32_t *number_at(int room) { return (uint32_t *)place(room); }
static bool *flag_at(int room) { return (bool *)place(room); }
static int stays(int room, size_t size) {
    for (size_t at = 0; at < sizeof rooms[room]; at++)
        if ((at < 8 || at >= 8 + size) && ((uint8_t *)rooms[room])[at] != 0xC3) return 0;
    return 1;
}
#define STAY_2(a, b) (stays(0, a) && stays(1, b))
#define STAY_3(a, b, c) (STAY_2(a, b) && stays(2, c))
#define STAY_4(a, b, c, d) (STAY_3(a, b, c) && stays(3, d))

static void results_stay(void) {
    kolatennis_host host = KOLATENNIS_INIT;
    kolatennis_printer printer = KOLATENNIS_INIT;
    kolatennis_till till = KOLATENNIS_INIT;
    kolatennis_sensors fine = {false, false, false};
    const kolatennis_options none = {0, 0}, bad = {1025, 0};
    const size_t s = sizeof(size_t), u = sizeof(uint32_t);
    for (int full = 0; full < 2; full++) {
        if (full) {
            IS(CALL(kolatennis_host_new(&host, 0)) == KOLATENNIS_STATUS_GOOD);
            IS(CALL(kolatennis_printer_new(&printer, &fine, 0)) == KOLATENNIS_STATUS_GOOD);
            IS(CALL(kolatennis_till_open(&till, bytes("x"), 1, number_at(0), count_at(1))) == KOLATENNIS_STATUS_REFUSED && STAY_2(u, s));
            IS(CALL(kolatennis_till_open(&till, NULL, 0, number_at(0), count_at(1))) == KOLATENNIS_STATUS_GOOD && STAY_2(u, s));
        }
        int wanted = full ? KOLATENNIS_STATUS_GOOD : KOLATENNIS_STATUS_EMPTY, refused = full ? KOLATENNIS_STATUS_REFUSED : KOLATENNIS_STATUS_EMPTY;
        IS(CALL(kolatennis_encode(NULL, bytes("[]"), 2, buffer, 9, count_at(0), number_at(1), count_at(2))) == KOLATENNIS_STATUS_REFUSED && STAY_3(s, u, s));
        IS(CALL(kolatennis_encode(&none, bytes("[]"), 2, buffer, 9, count_at(0), number_at(1), count_at(2))) == KOLATENNIS_STATUS_REFUSED && STAY_3(s, u, s));
        IS(CALL(kolatennis_encode(&bad, bytes("[]"), 2, buffer, 9, count_at(0), number_at(1), count_at(2))) == KOLATENNIS_STATUS_REFUSED && STAY_3(s, u, s));
        IS(CALL(kolatennis_listing(bytes("A"), 1, buffer, CAPACITY, count_at(0))) == KOLATENNIS_STATUS_GOOD && stays(0, s));
        for (int width = 24; width <= 2048; width += 2024) {
            int of_width = width == 24 ? KOLATENNIS_STATUS_GOOD : KOLATENNIS_STATUS_REFUSED;
            IS(CALL(kolatennis_paper(width, bytes("A"), 1, buffer, CAPACITY, count_at(0))) == of_width && stays(0, s));
            IS(CALL(kolatennis_paper_text(width, bytes("A"), 1, buffer, CAPACITY, count_at(0))) == of_width && stays(0, s));
            IS(CALL(kolatennis_picture(width, bytes("A"), 1, buffer, CAPACITY, count_at(0))) == of_width && stays(0, s));
            IS(CALL(kolatennis_image(width, 0, bytes("P1 1 1 1"), 8, buffer, CAPACITY, count_at(0))) == of_width && stays(0, s));
        }
        IS(CALL(kolatennis_host_nudge(&host, number_at(0))) == refused && stays(0, u));
        IS(CALL(kolatennis_host_ask(&host, 1, number_at(0))) == refused && stays(0, u));
        IS(CALL(kolatennis_host_link_up(&host, number_at(0))) == wanted && stays(0, u));
        IS(CALL(kolatennis_host_submit(&host, NULL, bytes("[]"), 2, number_at(0), count_at(1))) == refused && STAY_2(u, s));
        IS(CALL(kolatennis_host_submit(&host, &none, bytes("[]"), 2, number_at(0), count_at(1))) == refused && STAY_2(u, s));
        IS(CALL(kolatennis_host_submit(&host, &bad, bytes("[]"), 2, number_at(0), count_at(1))) == refused && STAY_2(u, s));
        IS(kolatennis_host_take_out(&host, buffer, 2, count_at(0)) == wanted && stays(0, s));
        IS(kolatennis_host_has_out(&host, flag_at(0)) == wanted && stays(0, 1));
        IS(kolatennis_host_heard(&host, bytes("\x12"), 1, count_at(0), number_at(1), count_at(2)) == wanted && STAY_3(s, u, s));
        IS(kolatennis_host_state(&host, number_at(0)) == wanted && stays(0, u));
        IS(kolatennis_host_next_mark(&host, number_at(0)) == wanted && stays(0, u));
        IS(kolatennis_host_records(&host, count_at(0)) == wanted && stays(0, s));
        IS(CALL(kolatennis_printer_feed(&printer, bytes("\x06"), 1, count_at(0), number_at(1), number_at(2), count_at(3))) == wanted && STAY_4(s, u, u, s));
        IS(kolatennis_printer_take_answer(&printer, buffer, CAPACITY, count_at(0)) == wanted && stays(0, s));
        IS(CALL(kolatennis_printer_paper(&printer, buffer, CAPACITY, count_at(0))) == wanted && stays(0, s));
        IS(CALL(kolatennis_till_queue(&till, &none, bytes("[]"), 2, number_at(0), count_at(1))) == refused && STAY_2(u, s));
        IS(CALL(kolatennis_till_queue_keyed(&till, &none, bytes("[]"), 2, bytes("a"), 1, number_at(0), count_at(1))) == refused && STAY_2(u, s));
        IS(CALL(kolatennis_till_deliver(&till, 0, NULL, 0, 9, number_at(0), count_at(1))) == refused && STAY_2(u, s));
        IS(CALL(kolatennis_till_raise(&till, 9, number_at(0), number_at(1))) == wanted && STAY_2(u, u));
        IS(kolatennis_till_asks(&till, (kolatennis_asked *)place(0)) == wanted && stays(0, sizeof(kolatennis_asked)));
        IS(CALL(kolatennis_till_append(&till, buffer, CAPACITY, count_at(0))) == wanted && stays(0, s));
        IS(kolatennis_till_take_out(&till, buffer, 2, count_at(0)) == wanted && stays(0, s));
        IS(kolatennis_till_came(&till, bytes("\x12"), 1, count_at(0)) == wanted && stays(0, s));
        IS(kolatennis_till_receipts(&till, count_at(0)) == wanted && stays(0, s));
        IS(kolatennis_till_state(&till, 1, number_at(0), count_at(1)) == wanted && STAY_2(u, s));
        IS(kolatennis_till_next_mark(&till, number_at(0)) == wanted && stays(0, u));
        IS(kolatennis_till_is_paused(&till, flag_at(0)) == wanted && stays(0, 1));
    }
    kolatennis_till_free(&till);
    kolatennis_host_free(&host);
    kolatennis_printer_free(&printer);
}

/* ---- long texts ---- */

/* A receipt of this many lines, its bytes, its listing and its paper. */
static void is_long(size_t lines) {
    size_t len = 2, written = 0, at = 0;
    uint32_t reason = 0;
    char *json = (char *)__real_malloc(16 * lines + 3);
    uint8_t *out = (uint8_t *)__real_malloc(2 * lines), *text = (uint8_t *)__real_malloc(32 * lines);
    strcpy(json, "[ ");
    for (size_t line = 0; line < lines; line++) len += sprintf(json + len, "{\"line\":\"A\"}%s", line + 1 < lines ? "," : "]");
    IS(kolatennis_encode(NULL, bytes(json), len, out, 2 * lines, &written, &reason, &at) == KOLATENNIS_STATUS_GOOD && written == 2 * lines);
    IS(memcmp(out, "A\nA\nA\n", 6) == 0 && memcmp(out + written - 2, "A\n", 2) == 0);
    IS(kolatennis_paper(0, out, written, text, 32 * lines, &written) == KOLATENNIS_STATUS_GOOD && written == 18 * lines);
    IS(memcmp(text + written - 18, "row left A\nfeed 1\n", 18) == 0);
    IS(kolatennis_listing(out, 2 * lines, text, 32 * lines, &written) == KOLATENNIS_STATUS_GOOD && written > 14 * lines);
    IS(kolatennis_picture(0, out, 2 * lines, text, 32 * lines, &written) == KOLATENNIS_STATUS_SHORT && written > 100 * lines);
    kolatennis_host host = KOLATENNIS_INIT;
    IS(kolatennis_host_new(&host, 0) == KOLATENNIS_STATUS_GOOD && kolatennis_host_link_up(&host, &reason) == KOLATENNIS_STATUS_GOOD);
    hears(&host, BYTES("\x37\"0000\x00"), 7, KOLATENNIS_EVENT_OPENED, 0);
    IS(kolatennis_host_submit(&host, NULL, bytes(json), len, &reason, &at) == KOLATENNIS_STATUS_GOOD);
    IS(kolatennis_host_take_out(&host, text, 32 * lines, &written) == KOLATENNIS_STATUS_GOOD && written == 11 + 2 + 2 * lines + 11);
    kolatennis_host_free(&host);
    free(json);
    free(out);
    free(text);
}

/* ---- both ends ---- */

/* Bytes go from one to the other until neither has any; returns the last event that isn't KOLATENNIS_EVENT_NONE. */
static uint32_t run_link(kolatennis_host *host, kolatennis_printer *printer) {
    uint32_t found = KOLATENNIS_EVENT_NONE;
    for (int turn = 0; turn < 100; turn++) {
        uint8_t piece[16];
        size_t written = 0, consumed = 0, number = 0;
        uint32_t event = KOLATENNIS_EVENT_NONE;
        IS(kolatennis_host_take_out(host, piece, sizeof piece, &written) == KOLATENNIS_STATUS_GOOD);
        if (written) feeds(printer, (const char *)piece, written, written, KOLATENNIS_STOP_ALL, 0, KOLATENNIS_NO_PLACE);
        size_t sent = written;
        IS(kolatennis_printer_take_answer(printer, piece, sizeof piece, &written) == KOLATENNIS_STATUS_GOOD);
        if (!sent && !written) return found;
        if (written) IS(kolatennis_host_heard(host, piece, written, &consumed, &event, &number) == KOLATENNIS_STATUS_GOOD && consumed == written);
        if (event != KOLATENNIS_EVENT_NONE) found = event;
    }
    return found;
}

static void prints_a_receipt(void) {
    kolatennis_host host = KOLATENNIS_INIT;
    kolatennis_printer printer = KOLATENNIS_INIT;
    kolatennis_sensors fine = {false, false, false};
    uint32_t reason;
    size_t at;
    IS(CALL(kolatennis_host_new(&host, 0)) == KOLATENNIS_STATUS_GOOD);
    IS(CALL(kolatennis_printer_new(&printer, &fine, 0)) == KOLATENNIS_STATUS_GOOD);
    IS(CALL(kolatennis_host_link_up(&host, &reason)) == KOLATENNIS_STATUS_GOOD);
    IS(run_link(&host, &printer) == KOLATENNIS_EVENT_OPENED);
    IS(submits(&host, "[{\"line\":\"One\"}]", &reason, &at) == KOLATENNIS_STATUS_GOOD);
    IS(submits(&host, "[{\"qr\":{\"size\":3,\"level\":\"L\",\"content\":\"https://example.com\"}},{\"cut\":\"full\"}]", &reason, &at) == KOLATENNIS_STATUS_GOOD);
    IS(run_link(&host, &printer) == KOLATENNIS_EVENT_RECORDED);
    stands(&host, KOLATENNIS_STATE_READY, 3, 2);
    has_paper(&printer, "row left One\nfeed 1\nqr left 2 3 L https://example.com\ncut full\n");
    kolatennis_printer_free(&printer);
    kolatennis_host_free(&host);
}

static void all(void) {
    encodes();
    encodes_with();
    lists_and_prints();
    draws();
    prints_at();
    makes_entries();
    goes_through_a_link();
    submits_with_options();
    holds_no_host();
    prints();
    prints_on_a_width();
    holds_no_printer();
    takes_a_receipt();
    takes_keys();
    delivers_a_receipt();
    tries_a_receipt();
    tells_pauses();
    opens_entries();
    holds_no_till();
    prints_a_receipt();
    results_stay();
}

int main(void) {
    asked = 0;
    all();
    unsigned long most = asked;
    is_too_long();
    is_long(5000);
    for (failing = 1; failing <= most; failing++) {
        asked = 0;
        all();
    }
    failing = 0;
    printf("%lu checks, %lu wrong; %lu allocations, each failing in turn\n", checked, wrong, most);
    return wrong != 0;
}

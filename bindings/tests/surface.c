/* What the calls of kolatennis.h do with pointers that are NULL and handles that hold anything, the names of the numbers, texts that
 * would be too long, and handles that move between threads. It prints what is wrong and how much was checked; the exit status is 1 if
 * anything is. */
#include "kolatennis.h"
#include <pthread.h>
#include <stdio.h>
#include <stdlib.h>
#include <string.h>

static unsigned long checked, wrong;

static void is(int holds, const char *what, int line) {
    checked++;
    if (!holds) {
        wrong++;
        printf("line %d: %s\n", line, what);
    }
}
#define IS(condition) is(condition, #condition, __LINE__)

enum { GOOD = KOLATENNIS_STATUS_GOOD, REFUSED = KOLATENNIS_STATUS_REFUSED, SHORT = KOLATENNIS_STATUS_SHORT, TOO_LONG = KOLATENNIS_STATUS_TOO_LONG, BAD = KOLATENNIS_STATUS_BAD_ARGUMENT };

static const uint8_t *bytes(const char *text) { return (const uint8_t *)text; }
#define TEXT(text) bytes(text), sizeof text - 1
#define HI TEXT("[{\"line\":\"Hi\"}]")

static uint8_t buffer[4096];
static size_t count, at, number;
static uint32_t reason, event, stop;
static bool has;

/* Gives each result a value that no call gives. */
static void reset(void) {
    count = at = number = 77;
    reason = event = stop = 77;
    has = true;
    memset(buffer, 0xA5, sizeof buffer);
}
static int is_blank(void) {
    for (size_t place = 0; place < sizeof buffer; place++)
        if (buffer[place] != 0xA5) return 0;
    return 1;
}

/* ---- the version, and names ---- */

static void has_names(void) {
    IS(!strcmp(kolatennis_version(), KOLATENNIS_VERSION));
    unsigned major = 0, minor = 0, patch = 0;
    IS(sscanf(KOLATENNIS_VERSION, "%u.%u.%u", &major, &minor, &patch) == 3);
    IS(KOLATENNIS_VERSION_NUMBER == 10000 * major + 100 * minor + patch);
    unsigned known = 0;
    for (uint32_t one = 0; one < 1300; one++) {
        if (!strcmp(kolatennis_error_name(one), "unknown")) continue;
        known++;
        for (uint32_t other = 0; other < one; other++) IS(strcmp(kolatennis_error_name(one), kolatennis_error_name(other)));
    }
    IS(known == 7 + 14 + 5 + 5 + 6 + 11 + 3);
    IS(!strcmp(kolatennis_error_name(KOLATENNIS_RECEIPT_TEXT_LEFT), "TextLeft"));
    IS(!strcmp(kolatennis_error_name(UINT32_MAX), "unknown") && !strcmp(kolatennis_error_name(KOLATENNIS_EVENT_OPENED), "unknown"));
}

/* ---- NULL where it is allowed ---- */

static void takes_null(void) {
    reset();
    IS(kolatennis_encode(NULL, HI, NULL, 0, &count, &reason, &at) == SHORT && count == 3 && reason == 0 && at == KOLATENNIS_NO_PLACE);
    IS(kolatennis_encode(NULL, HI, buffer, 3, NULL, NULL, NULL) == GOOD && !memcmp(buffer, "Hi\n", 3));
    IS(kolatennis_encode(NULL, NULL, 0, NULL, 0, NULL, &reason, NULL) == REFUSED && reason == KOLATENNIS_RECEIPT_NOT_JSON);
    IS(kolatennis_encode(NULL, TEXT("[{\"line\":\"A\"},{\"fed\":1}]"), NULL, 0, NULL, NULL, &at) == REFUSED && at == 1);
    reset();
    IS(kolatennis_listing(NULL, 0, NULL, 0, &count) == SHORT && count == 16);
    IS(kolatennis_listing(NULL, 0, buffer, 16, NULL) == GOOD && !memcmp(buffer, "end 0 pending 0\n", 16));
    IS(kolatennis_paper(0, NULL, 0, NULL, 0, NULL) == GOOD && kolatennis_paper_text(0, NULL, 0, NULL, 0, NULL) == GOOD);
    IS(kolatennis_picture(0, NULL, 0, NULL, 0, NULL) == SHORT);
    IS(kolatennis_image(0, 0, NULL, 0, NULL, 0, &count) == SHORT && count == 21);
}

static void takes_null_of_a_host(void) {
    kolatennis_host host;
    memset(&host, 0xA5, sizeof host);
    reset();
    IS(kolatennis_host_new(&host, 7) == GOOD);
    IS(kolatennis_host_nudge(&host, NULL) == REFUSED && kolatennis_host_ask(&host, 1, NULL) == REFUSED);
    IS(kolatennis_host_submit(&host, NULL, HI, NULL, NULL) == REFUSED);
    IS(kolatennis_host_submit(&host, NULL, NULL, 0, &reason, NULL) == REFUSED && reason == KOLATENNIS_RECEIPT_NOT_JSON);
    IS(kolatennis_host_submit(&host, NULL, HI, &reason, NULL) == REFUSED && reason == KOLATENNIS_HOST_NOT_READY);
    IS(kolatennis_host_submit_raw(&host, 0, NULL, 0, &reason, &at) == REFUSED && reason == KOLATENNIS_RECEIPT_EMPTY && at == KOLATENNIS_NO_PLACE);
    IS(kolatennis_host_submit_raw(&host, 0, TEXT("Hi\n\x1D"), &reason, &at) == REFUSED && reason == KOLATENNIS_RECEIPT_CUT_SHORT && at == 3);
    IS(kolatennis_host_submit_raw(&host, 0, TEXT("Hi\n\x1D\x01"), &reason, &at) == REFUSED && reason == KOLATENNIS_FAULT_UNKNOWN_COMMAND && at == 4);
    IS(kolatennis_host_submit_raw(&host, 0, TEXT("\x1B@Hi\n\x1B@A\n"), &reason, &at) == REFUSED && reason == KOLATENNIS_RECEIPT_FORBIDDEN && at == 5);
    IS(kolatennis_host_submit_raw(&host, 1025, TEXT("Hi\n"), &reason, NULL) == REFUSED && reason == KOLATENNIS_RECEIPT_BAD_OPTIONS);
    IS(kolatennis_host_submit_raw(&host, 0, TEXT("Hi\n"), &reason, NULL) == REFUSED && reason == KOLATENNIS_HOST_NOT_READY);
    IS(kolatennis_host_link_up(&host, NULL) == GOOD && kolatennis_host_link_up(&host, NULL) == REFUSED);
    IS(kolatennis_host_has_out(&host, NULL) == GOOD && kolatennis_host_state(&host, NULL) == GOOD);
    IS(kolatennis_host_next_mark(&host, NULL) == GOOD && kolatennis_host_records(&host, NULL) == GOOD);
    IS(kolatennis_host_take_out(&host, NULL, 0, &count) == GOOD && count == 0);
    IS(kolatennis_host_take_out(&host, buffer, sizeof buffer, NULL) == GOOD && !memcmp(buffer, "\x1D(H\x06\x00" "000007", 11));
    IS(kolatennis_host_heard(&host, NULL, 0, &count, &event, &number) == GOOD && count == 0 && event == KOLATENNIS_EVENT_NONE && number == 0);
    IS(kolatennis_host_heard(&host, TEXT("\x37\"0007\x00"), NULL, NULL, NULL) == GOOD);
    IS(kolatennis_host_submit(&host, NULL, HI, NULL, NULL) == GOOD);
    IS(kolatennis_host_take_out(&host, buffer, sizeof buffer, &count) == GOOD && count == 16 && !memcmp(buffer, "\x1B@Hi\n", 5));
    IS(kolatennis_host_submit_raw(&host, 0, TEXT("\x1B@\x1D" "a\xFF" "Hi\n\x10\x04\x01\x1B@"), NULL, NULL) == GOOD);
    IS(kolatennis_host_take_out(&host, buffer, sizeof buffer, &count) == GOOD && count == 16 && !memcmp(buffer, "\x1B@Hi\n", 5));
    kolatennis_host_free(&host);
    memset(&host, 0x5A, sizeof host);
    IS(kolatennis_host_resume(&host, 7, 3) == GOOD && kolatennis_host_records(&host, &count) == GOOD && count == 3);
    kolatennis_host_free(&host);
    kolatennis_host_free(&host);
    kolatennis_host_free(NULL);
    IS(kolatennis_host_link_down(&host) == KOLATENNIS_STATUS_EMPTY);
}

static void takes_null_of_a_printer(void) {
    kolatennis_printer printer;
    memset(&printer, 0xA5, sizeof printer);
    reset();
    IS(kolatennis_printer_new(&printer, NULL, 1025) == REFUSED && kolatennis_printer_tear_off(&printer) == KOLATENNIS_STATUS_EMPTY);
    memset(&printer, 0xA5, sizeof printer);
    IS(kolatennis_printer_new(&printer, NULL, 0) == GOOD);
    IS(kolatennis_printer_feed(&printer, NULL, 0, &count, &stop, &reason, &at) == GOOD && count == 0 && stop == KOLATENNIS_STOP_ALL && reason == 0 && at == KOLATENNIS_NO_PLACE);
    IS(kolatennis_printer_feed(&printer, TEXT("A\n\x10\x04\x02"), NULL, NULL, NULL, NULL) == GOOD);
    IS(kolatennis_printer_take_answer(&printer, NULL, 0, &count) == SHORT && count == 7);
    IS(kolatennis_printer_take_answer(&printer, buffer, sizeof buffer, NULL) == GOOD && buffer[0] == 0x12);
    IS(kolatennis_printer_paper(&printer, NULL, 0, &count) == SHORT && count == 18);
    IS(kolatennis_printer_paper(&printer, buffer, 18, NULL) == GOOD && !memcmp(buffer, "row left A\nfeed 1\n", 18));
    const kolatennis_sensors open = {true, false, false};
    IS(kolatennis_printer_set_condition(&printer, &open) == GOOD && kolatennis_printer_set_condition(&printer, NULL) == GOOD);
    IS(kolatennis_printer_feed(&printer, TEXT("B"), &count, &stop, NULL, NULL) == GOOD && count == 1 && stop == KOLATENNIS_STOP_ALL);
    kolatennis_printer_free(&printer);
    kolatennis_printer_free(&printer);
    kolatennis_printer_free(NULL);
}

static void takes_null_of_a_till(void) {
    kolatennis_till till;
    memset(&till, 0xA5, sizeof till);
    IS(kolatennis_till_new(&till) == GOOD && kolatennis_till_queue(&till, NULL, HI, NULL, NULL) == GOOD);
    IS(kolatennis_till_queue(&till, NULL, NULL, 0, NULL, NULL) == REFUSED && kolatennis_till_raise(&till, 1, NULL, NULL) == REFUSED && kolatennis_till_cancel(&till, 1, NULL) == REFUSED);
    IS(kolatennis_till_asks(&till, NULL) == GOOD && kolatennis_till_append(&till, NULL, 0, NULL) == SHORT);
    reset();
    IS(kolatennis_till_append(&till, buffer, sizeof buffer, NULL) == GOOD && !memcmp(buffer, "queued 020000", 13));
    IS(kolatennis_till_appended(&till, true) == GOOD && kolatennis_till_told(&till) == GOOD);
    IS(kolatennis_till_deliver(&till, 0, NULL, 0, 9, NULL, NULL) == GOOD && kolatennis_till_connected(&till, true) == GOOD);
    IS(kolatennis_till_appended(&till, true) == GOOD && kolatennis_till_take_out(&till, NULL, 0, NULL) == GOOD);
    IS(kolatennis_till_came(&till, NULL, 0, NULL) == GOOD && kolatennis_till_receipts(&till, NULL) == GOOD);
    IS(kolatennis_till_state(&till, 1, NULL, NULL) == GOOD && kolatennis_till_next_mark(&till, NULL) == GOOD);
    IS(kolatennis_till_is_paused(&till, NULL) == GOOD);
    kolatennis_till_free(&till);
    IS(kolatennis_till_new(&till) == GOOD && kolatennis_till_queue_keyed(&till, NULL, HI, NULL, 0, &reason, NULL) == REFUSED && reason == KOLATENNIS_TILL_BAD_KEY);
    IS(kolatennis_till_queue_keyed(&till, NULL, HI, TEXT("a"), NULL, NULL) == GOOD && kolatennis_till_append(&till, buffer, sizeof buffer, NULL) == GOOD);
    IS(!memcmp(buffer, "key 61\n", 7));
    kolatennis_till_free(&till);
    IS(kolatennis_till_new(&till) == GOOD && kolatennis_till_queue_raw(&till, 0, NULL, 0, NULL, NULL) == REFUSED);
    IS(kolatennis_till_queue_raw(&till, 0, TEXT("A\x1DV\x01"), &reason, &at) == REFUSED && reason == KOLATENNIS_RECEIPT_MID_LINE && at == 1);
    IS(kolatennis_till_queue_raw(&till, 0, TEXT("Hi\n"), NULL, NULL) == GOOD && kolatennis_till_append(&till, buffer, sizeof buffer, NULL) == GOOD);
    IS(!memcmp(buffer, "queued 0200001b4048690a\n", 24));
    kolatennis_till_free(&till);
    memset(&till, 0x5A, sizeof till);
    IS(kolatennis_till_open(&till, bytes("x"), 1, NULL, NULL) == REFUSED && kolatennis_till_told(&till) == KOLATENNIS_STATUS_EMPTY);
    memset(&till, 0x5A, sizeof till);
    IS(kolatennis_till_open(&till, NULL, 0, NULL, NULL) == GOOD);
    kolatennis_till_free(&till);
    kolatennis_till_free(&till);
    kolatennis_till_free(NULL);
}

/* ---- NULL where it is not ---- */

static void refuses_null(void) {
    kolatennis_host host = KOLATENNIS_INIT;
    kolatennis_printer printer = KOLATENNIS_INIT;
    kolatennis_till till = KOLATENNIS_INIT;
    IS(kolatennis_host_new(&host, 0) == GOOD && kolatennis_printer_new(&printer, NULL, 0) == GOOD && kolatennis_till_new(&till) == GOOD);
    reset();
    IS(kolatennis_encode(NULL, NULL, 1, buffer, 9, &count, &reason, &at) == BAD && count == 0 && reason == 0 && at == KOLATENNIS_NO_PLACE);
    IS(kolatennis_encode(NULL, HI, NULL, 1, NULL, NULL, NULL) == BAD);
    IS(kolatennis_listing(NULL, 1, buffer, 9, &count) == BAD && kolatennis_listing(bytes("A"), 1, NULL, 1, NULL) == BAD);
    IS(kolatennis_paper(0, NULL, 1, buffer, 9, &count) == BAD && kolatennis_paper(0, bytes("A"), 1, NULL, 1, NULL) == BAD);
    IS(kolatennis_paper_text(0, NULL, 1, buffer, 9, &count) == BAD && kolatennis_paper_text(0, bytes("A"), 1, NULL, 1, NULL) == BAD);
    IS(kolatennis_picture(0, NULL, 1, buffer, 9, &count) == BAD && kolatennis_picture(0, bytes("A"), 1, NULL, 1, NULL) == BAD);
    IS(kolatennis_image(0, 0, NULL, 1, buffer, 9, &count) == BAD && kolatennis_image(0, 0, bytes("P"), 1, NULL, 1, NULL) == BAD);
    reset();
    IS(kolatennis_host_new(NULL, 0) == BAD && kolatennis_host_resume(NULL, 0, 0) == BAD && kolatennis_host_link_down(NULL) == BAD);
    IS(kolatennis_host_link_up(NULL, &reason) == BAD && reason == 0 && kolatennis_host_nudge(NULL, NULL) == BAD && kolatennis_host_ask(NULL, 1, NULL) == BAD);
    reset();
    IS(kolatennis_host_submit(NULL, NULL, HI, &reason, &at) == BAD && reason == 0 && at == KOLATENNIS_NO_PLACE);
    IS(kolatennis_host_submit(&host, NULL, NULL, 1, NULL, NULL) == BAD);
    reset();
    IS(kolatennis_host_submit_raw(NULL, 0, HI, &reason, &at) == BAD && reason == 0 && at == KOLATENNIS_NO_PLACE && kolatennis_host_submit_raw(&host, 0, NULL, 1, NULL, NULL) == BAD);
    IS(kolatennis_host_take_out(NULL, buffer, 9, &count) == BAD && count == 0 && kolatennis_host_take_out(&host, NULL, 1, NULL) == BAD);
    reset();
    IS(kolatennis_host_heard(NULL, TEXT("A"), &count, &event, &number) == BAD && count == 0 && event == KOLATENNIS_EVENT_NONE && number == 0);
    IS(kolatennis_host_heard(&host, NULL, 1, NULL, NULL, NULL) == BAD);
    IS(kolatennis_host_has_out(NULL, &has) == BAD && !has && kolatennis_host_state(NULL, &event) == BAD && event == KOLATENNIS_STATE_DOWN);
    reset();
    IS(kolatennis_host_next_mark(NULL, &reason) == BAD && reason == 0 && kolatennis_host_records(NULL, &count) == BAD && count == 0);
    reset();
    IS(kolatennis_printer_new(NULL, NULL, 0) == BAD && kolatennis_printer_set_condition(NULL, NULL) == BAD && kolatennis_printer_tear_off(NULL) == BAD);
    IS(kolatennis_printer_feed(NULL, TEXT("A"), &count, &stop, &reason, &at) == BAD && count == 0 && stop == KOLATENNIS_STOP_ALL && reason == 0 && at == KOLATENNIS_NO_PLACE);
    IS(kolatennis_printer_feed(&printer, NULL, 1, NULL, NULL, NULL, NULL) == BAD);
    IS(kolatennis_printer_take_answer(NULL, buffer, 9, &count) == BAD && kolatennis_printer_take_answer(&printer, NULL, 7, NULL) == BAD);
    reset();
    IS(kolatennis_printer_paper(NULL, buffer, 9, &count) == BAD && count == 0 && kolatennis_printer_paper(&printer, NULL, 1, NULL) == BAD);
    kolatennis_asked asked = {77, 77, 77, 77};
    IS(kolatennis_till_new(NULL) == BAD && kolatennis_till_open(NULL, HI, NULL, NULL) == BAD && kolatennis_till_asks(NULL, &asked) == BAD);
    IS(asked.ask == KOLATENNIS_ASK_NOTHING && asked.note == KOLATENNIS_NOTE_NONE && asked.fault == 0 && asked.number == 0);
    reset();
    IS(kolatennis_till_queue(NULL, NULL, HI, &reason, &at) == BAD && reason == 0 && at == KOLATENNIS_NO_PLACE && kolatennis_till_queue(&till, NULL, NULL, 1, NULL, NULL) == BAD);
    reset();
    IS(kolatennis_till_queue_keyed(NULL, NULL, HI, HI, &reason, &at) == BAD && reason == 0 && at == KOLATENNIS_NO_PLACE);
    IS(kolatennis_till_queue_keyed(&till, NULL, NULL, 1, NULL, 0, NULL, NULL) == BAD && kolatennis_till_queue_keyed(&till, NULL, NULL, 0, NULL, 1, NULL, NULL) == BAD);
    reset();
    IS(kolatennis_till_queue_raw(NULL, 0, HI, &reason, &at) == BAD && reason == 0 && at == KOLATENNIS_NO_PLACE && kolatennis_till_queue_raw(&till, 0, NULL, 1, NULL, NULL) == BAD);
    reset();
    IS(kolatennis_till_deliver(NULL, 1, NULL, 0, 9, &reason, &at) == BAD && reason == 0 && at == KOLATENNIS_NO_PLACE && kolatennis_till_deliver(&till, 1, NULL, 1, 9, NULL, NULL) == BAD);
    reset();
    IS(kolatennis_till_cancel(NULL, 1, &reason) == BAD && reason == 0);
    reset();
    IS(kolatennis_till_raise(NULL, 1, &reason, &event) == BAD && reason == 0 && event == 0 && kolatennis_till_came(NULL, HI, &count) == BAD && count == 0);
    reset();
    IS(kolatennis_till_append(NULL, buffer, 9, &count) == BAD && count == 0 && kolatennis_till_append(&till, NULL, 1, NULL) == BAD && kolatennis_till_came(&till, NULL, 1, NULL) == BAD);
    reset();
    IS(kolatennis_till_take_out(NULL, buffer, 9, &count) == BAD && count == 0 && kolatennis_till_take_out(&till, NULL, 1, NULL) == BAD);
    IS(kolatennis_till_appended(NULL, true) == BAD && kolatennis_till_connected(NULL, true) == BAD && kolatennis_till_link_ended(NULL, KOLATENNIS_LINK_ENDED) == BAD);
    IS(kolatennis_till_hung_up(NULL) == BAD && kolatennis_till_told(NULL) == BAD);
    reset();
    IS(kolatennis_till_receipts(NULL, &count) == BAD && count == 0 && kolatennis_till_next_mark(NULL, &reason) == BAD && reason == 0);
    IS(kolatennis_till_is_paused(NULL, &has) == BAD && !has);
    reset();
    IS(kolatennis_till_state(NULL, 1, &reason, &count) == BAD && reason == KOLATENNIS_STANDS_UNKNOWN && count == 0);
    kolatennis_till_free(&till);
    IS(kolatennis_till_open(&till, NULL, 1, NULL, NULL) == BAD && kolatennis_till_told(&till) == KOLATENNIS_STATUS_EMPTY);
    IS(is_blank());
    kolatennis_host_free(&host);
    kolatennis_printer_free(&printer);
    kolatennis_till_free(&till);
}

/* ---- texts that would be too long ---- */

#define LIMIT ((size_t)268435456)

/* A stream that stores a QR code's content of 7,089 bytes once, and then prints it so many times. */
static size_t qr_stream(uint8_t *stream, size_t prints) {
    static const uint8_t store[] = {0x1D, '(', 'k', 0xB4, 0x1B, '1', 'P', '0'}, print[] = {0x1D, '(', 'k', 0x03, 0x00, '1', 'Q', '0'};
    memcpy(stream, store, sizeof store);
    memset(stream + sizeof store, '7', 7089);
    for (size_t count = 0; count < prints; count++) memcpy(stream + sizeof store + 7089 + count * sizeof print, print, sizeof print);
    return sizeof store + 7089 + prints * sizeof print;
}

static void is_too_long(void) {
    enum { MOST = 16777216 };
    uint8_t *stream = (uint8_t *)malloc(MOST);
    size_t len = qr_stream(stream, (MOST - 7097) / 8);
    reset();
    IS(kolatennis_paper(0, stream, len, buffer, sizeof buffer, &count) == TOO_LONG && count == 0 && is_blank());
    count = 77;
    IS(kolatennis_paper_text(0, stream, len, buffer, sizeof buffer, &count) == TOO_LONG && count == 0 && is_blank());
    count = 77;
    IS(kolatennis_picture(0, stream, len, buffer, sizeof buffer, &count) == TOO_LONG && count == 0 && is_blank());
    kolatennis_printer printer;
    IS(kolatennis_printer_new(&printer, NULL, 0) == GOOD);
    len = qr_stream(stream, 40000);
    IS(kolatennis_printer_feed(&printer, stream, len, &count, &stop, NULL, NULL) == GOOD && count == len && stop == KOLATENNIS_STOP_ALL);
    count = 77;
    IS(kolatennis_printer_paper(&printer, buffer, sizeof buffer, &count) == TOO_LONG && count == 0 && is_blank());
    IS(kolatennis_printer_tear_off(&printer) == GOOD && kolatennis_printer_paper(&printer, buffer, sizeof buffer, &count) == GOOD && count == 0);
    kolatennis_printer_free(&printer);
    /* a text that is nearly as long as allowed: each print is a line of the content and what stands around it */
    len = qr_stream(stream, 1);
    IS(kolatennis_paper(0, stream, len, NULL, 0, &count) == SHORT && count > 7089);
    size_t prints = LIMIT / count;
    len = qr_stream(stream, prints);
    IS(kolatennis_paper(0, stream, len, NULL, 0, &at) == SHORT && at == prints * count);
    len = qr_stream(stream, prints + 1);
    IS(kolatennis_paper(0, stream, len, NULL, 0, &at) == TOO_LONG && at == 0);
    /* a character is a line of up to 17 bytes in a listing */
    memset(stream, 0xFF, MOST);
    reset();
    IS(kolatennis_listing(stream, MOST, buffer, sizeof buffer, &count) == TOO_LONG && count == 0 && is_blank());
    IS(kolatennis_listing(stream, MOST / 2, NULL, 0, &count) == SHORT && count > LIMIT / 4 && count <= LIMIT);
    free(stream);
}

/* ---- threads ---- */

static void *goes_on(void *of) {
    kolatennis_host *host = (kolatennis_host *)of;
    IS(kolatennis_host_heard(host, TEXT("\x37\"0000\x00"), &count, &event, &number) == GOOD && event == KOLATENNIS_EVENT_OPENED);
    IS(kolatennis_host_submit(host, NULL, HI, NULL, NULL) == GOOD);
    return NULL;
}

static void *ends(void *of) {
    kolatennis_host *host = (kolatennis_host *)of;
    IS(kolatennis_host_take_out(host, buffer, sizeof buffer, &count) == GOOD && count == 11 + 16);
    kolatennis_host_free(host);
    return NULL;
}

static void moves_between_threads(void) {
    kolatennis_host host;
    pthread_t other;
    IS(kolatennis_host_new(&host, 0) == GOOD && kolatennis_host_link_up(&host, NULL) == GOOD);
    IS(pthread_create(&other, NULL, goes_on, &host) == 0 && pthread_join(other, NULL) == 0);
    IS(pthread_create(&other, NULL, ends, &host) == 0 && pthread_join(other, NULL) == 0);
    IS(kolatennis_host_link_down(&host) == KOLATENNIS_STATUS_EMPTY);
}

int main(int arguments, char **argument) {
    has_names();
    takes_null();
    takes_null_of_a_host();
    takes_null_of_a_printer();
    takes_null_of_a_till();
    refuses_null();
    moves_between_threads();
    /* (the long texts take seconds, and much longer under valgrind) */
    if (arguments == 2 && !strcmp(argument[1], "long")) is_too_long();
    printf("%lu checks of the surface, %lu wrong\n", checked, wrong);
    return wrong != 0;
}

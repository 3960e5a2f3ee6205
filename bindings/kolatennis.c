/* The calls of kolatennis.h, over the exports of crates/escpos_c.
 *
 * This file is tested, not proved. The exports are proved, but no export may take a NULL for a reference or a slice, and none may
 * return a string: the toolchain refuses `extern "C" fn f(p: *mut u8) -> *mut u8` [exported-raw-pointer]. So each call here gives its
 * export something valid in place of a NULL that is allowed, answers BAD_ARGUMENT to one that isn't, gives each number the range of its
 * family, and does nothing else. */
#include "kolatennis.h"

/* ---- the exports ---- */

int escpos_encode_with(const kolatennis_options *options, const uint8_t *json, size_t json_len, uint8_t *out, size_t capacity, size_t *written, uint32_t *reason, size_t *at);
int escpos_listing(const uint8_t *bytes, size_t len, uint8_t *out, size_t capacity, size_t *written);
int escpos_paper_at(uint16_t width, const uint8_t *bytes, size_t len, uint8_t *out, size_t capacity, size_t *written);
int escpos_paper_text_at(uint16_t width, const uint8_t *bytes, size_t len, uint8_t *out, size_t capacity, size_t *written);
int escpos_picture_at(uint16_t width, const uint8_t *bytes, size_t len, uint8_t *out, size_t capacity, size_t *written);
int escpos_image(uint16_t width, uint8_t threshold, const uint8_t *bytes, size_t len, uint8_t *out, size_t capacity, size_t *written);
int escpos_host_resume(kolatennis_host *host, uint32_t first_mark, size_t records);
void escpos_host_free(kolatennis_host *host);
int escpos_host_link_up(kolatennis_host *host, uint32_t *reason);
int escpos_host_nudge(kolatennis_host *host, uint32_t *reason);
int escpos_host_submit_with(kolatennis_host *host, const kolatennis_options *options, const uint8_t *json, size_t json_len, uint32_t *reason, uint32_t *fault, size_t *at);
int escpos_host_submit_raw(kolatennis_host *host, uint16_t width, const uint8_t *stream, size_t len, uint32_t *reason, uint32_t *fault, size_t *at);
int escpos_host_ask(kolatennis_host *host, uint8_t kind, uint32_t *reason);
int escpos_host_link_down(kolatennis_host *host);
int escpos_host_take_out(kolatennis_host *host, uint8_t *out, size_t capacity, size_t *written);
int escpos_host_has_out(kolatennis_host *host, bool *has);
int escpos_host_heard(kolatennis_host *host, const uint8_t *bytes, size_t len, size_t *consumed, uint32_t *event, size_t *number);
int escpos_host_state(kolatennis_host *host, uint32_t *state);
int escpos_host_next_mark(kolatennis_host *host, uint32_t *mark);
int escpos_host_records(kolatennis_host *host, size_t *records);
int escpos_printer_new_at(kolatennis_printer *printer, const kolatennis_sensors *sensors, uint16_t width);
void escpos_printer_free(kolatennis_printer *printer);
int escpos_printer_feed(kolatennis_printer *printer, const uint8_t *bytes, size_t len, size_t *consumed, uint32_t *stop, uint32_t *reason, size_t *at);
int escpos_printer_take_answer(kolatennis_printer *printer, uint8_t *out, size_t capacity, size_t *written);
int escpos_printer_set_condition(kolatennis_printer *printer, const kolatennis_sensors *sensors);
int escpos_printer_paper(kolatennis_printer *printer, uint8_t *out, size_t capacity, size_t *written);
int escpos_printer_tear_off(kolatennis_printer *printer);

/* Why a call of a till is refused, and where a receipt stands. */
typedef struct {
    uint32_t reason, fault;
    size_t at;
    uint32_t next;
} till_told;
typedef struct {
    uint32_t kind;
    size_t number;
} till_standing;

int escpos_till_open(kolatennis_till *till, const uint8_t *lines, size_t len, uint32_t *reason, size_t *at);
void escpos_till_free(kolatennis_till *till);
int escpos_till_queue(kolatennis_till *till, const kolatennis_options *options, const uint8_t *json, size_t json_len, till_told *told);
int escpos_till_queue_keyed(kolatennis_till *till, const kolatennis_options *options, const uint8_t *json, size_t json_len, const uint8_t *key, size_t key_len, till_told *told);
int escpos_till_queue_raw(kolatennis_till *till, uint16_t width, const uint8_t *stream, size_t len, till_told *told);
int escpos_till_raise(kolatennis_till *till, uint32_t first, till_told *told);
int escpos_till_cancel(kolatennis_till *till, size_t number, till_told *told);
int escpos_till_deliver(kolatennis_till *till, uint32_t openings, const uint8_t *copy, size_t copy_len, uint32_t most, till_told *told);
int escpos_till_asks(kolatennis_till *till, kolatennis_asked *asked);
int escpos_till_append(kolatennis_till *till, uint8_t *out, size_t capacity, size_t *written);
int escpos_till_appended(kolatennis_till *till, bool kept);
int escpos_till_connected(kolatennis_till *till, bool is);
int escpos_till_take_out(kolatennis_till *till, uint8_t *out, size_t capacity, size_t *written);
int escpos_till_came(kolatennis_till *till, const uint8_t *bytes, size_t len, size_t *consumed);
int escpos_till_link_ended(kolatennis_till *till, uint32_t why);
int escpos_till_hung_up(kolatennis_till *till);
int escpos_till_told(kolatennis_till *till);
int escpos_till_receipts(kolatennis_till *till, size_t *receipts);
int escpos_till_standing(kolatennis_till *till, size_t number, till_standing *standing);
int escpos_till_is_paused(kolatennis_till *till, bool *is);
int escpos_till_next_mark(kolatennis_till *till, uint32_t *mark);

/* ---- what stands for a NULL ---- */

static const kolatennis_options USUAL = {0, 0};
static const kolatennis_sensors FINE = {false, false, false};
static uint8_t no_bytes[1]; /* a buffer of length 0 */

static const kolatennis_options *or_usual(const kolatennis_options *options) { return options ? options : &USUAL; }
static const kolatennis_sensors *or_fine(const kolatennis_sensors *sensors) { return sensors ? sensors : &FINE; }
static const uint8_t *or_none(const uint8_t *bytes) { return bytes ? bytes : no_bytes; }
static uint8_t *or_no_room(uint8_t *out) { return out ? out : no_bytes; }

/* Whether there is a buffer of this length at this place. */
static bool is_buffer(const uint8_t *at, size_t len) { return at || !len; }

/* The results of an export go to places of the call's own, and from there to those that the caller gave. */
#define TELL(result, value) \
    do { \
        if (result) *(result) = (value); \
    } while (0)

/* ---- the families of numbers ---- */

enum { RECEIPT = 100, HOST = 200, FAULT = 300, EVENT = 400, STATE = 500, STOP = 600, TILL = 700, ASK = 800, NOTE = 900, LINK = 1000, STANDS = 1100, PAUSE = 1200, BAD_ARGUMENT = KOLATENNIS_STATUS_BAD_ARGUMENT };

/* A reason of a family, or 0 for none. */
static uint32_t reason_in(uint32_t family, uint32_t number) { return number ? family + number : 0; }

/* Why a receipt is refused. A byte of a stream that is refused has the reason of its own family. */
static uint32_t receipt_reason(uint32_t number) { return number > 20 && number < 26 ? reason_in(FAULT, number - 20) : reason_in(RECEIPT, number); }

const char *kolatennis_version(void) { return KOLATENNIS_VERSION; }

const char *kolatennis_error_name(uint32_t reason) {
    switch (reason) {
        case KOLATENNIS_STATUS_GOOD: return "good";
        case KOLATENNIS_STATUS_REFUSED: return "refused";
        case KOLATENNIS_STATUS_EMPTY: return "handle holds nothing";
        case KOLATENNIS_STATUS_MEMORY: return "out of memory";
        case KOLATENNIS_STATUS_SHORT: return "buffer too short";
        case KOLATENNIS_STATUS_TOO_LONG: return "text too long";
        case KOLATENNIS_STATUS_BAD_ARGUMENT: return "bad argument";
        case KOLATENNIS_RECEIPT_EMPTY: return "Empty";
        case KOLATENNIS_RECEIPT_FORBIDDEN: return "Forbidden";
        case KOLATENNIS_RECEIPT_TEXT_LEFT: return "TextLeft";
        case KOLATENNIS_RECEIPT_MID_LINE: return "MidLine";
        case KOLATENNIS_RECEIPT_NOT_JSON: return "NotJson";
        case KOLATENNIS_RECEIPT_BAD_SHAPE: return "BadShape";
        case KOLATENNIS_RECEIPT_CONTROL_BYTE: return "ControlByte";
        case KOLATENNIS_RECEIPT_NO_CHARACTER: return "NoCharacter";
        case KOLATENNIS_RECEIPT_REAL_TIME: return "RealTime";
        case KOLATENNIS_RECEIPT_NOT_PRINTABLE: return "NotPrintable";
        case KOLATENNIS_RECEIPT_TOO_LONG: return "TooLong";
        case KOLATENNIS_RECEIPT_BAD_OPTIONS: return "BadOptions";
        case KOLATENNIS_RECEIPT_CUT_SHORT: return "CutShort";
        case KOLATENNIS_HOST_NOT_READY: return "NotReady";
        case KOLATENNIS_HOST_MARKS_USED_UP: return "MarksUsedUp";
        case KOLATENNIS_HOST_ALREADY_UP: return "AlreadyUp";
        case KOLATENNIS_HOST_IN_FLIGHT_FULL: return "InFlightFull";
        case KOLATENNIS_HOST_NO_KIND: return "NoKind";
        case KOLATENNIS_FAULT_UNKNOWN_BYTE: return "UnknownByte";
        case KOLATENNIS_FAULT_UNKNOWN_COMMAND: return "UnknownCommand";
        case KOLATENNIS_FAULT_BAD_PARAMETER: return "BadParameter";
        case KOLATENNIS_FAULT_BAD_BARCODE: return "BadBarcode";
        case KOLATENNIS_FAULT_BAD_SIZE: return "BadSize";
        case KOLATENNIS_TILL_BUSY: return "Busy";
        case KOLATENNIS_TILL_FAILED: return "Failed";
        case KOLATENNIS_TILL_NOTHING_WAITS: return "NothingWaits";
        case KOLATENNIS_TILL_MARK_REUSED: return "MarkReused";
        case KOLATENNIS_TILL_MARK_TOO_HIGH: return "MarkTooHigh";
        case KOLATENNIS_TILL_NOT_TAKEN: return "NotTaken";
        case KOLATENNIS_TILL_RECORDED: return "Recorded";
        case KOLATENNIS_TILL_CANCELLED: return "Cancelled";
        case KOLATENNIS_TILL_BAD_COPY: return "BadCopy";
        case KOLATENNIS_TILL_DAMAGED: return "Damaged";
        case KOLATENNIS_TILL_BAD_KEY: return "BadKey";
        case KOLATENNIS_TILL_EARLIER: return "Earlier";
        case KOLATENNIS_LINK_ENDED: return "Ended";
        case KOLATENNIS_LINK_READ_FAULT: return "ReadFault";
        case KOLATENNIS_LINK_WRITE_FAULT: return "WriteFault";
        case KOLATENNIS_LINK_TIMED_OUT: return "TimedOut";
        case KOLATENNIS_LINK_TOO_MANY_ANSWERS: return "TooManyAnswers";
        case KOLATENNIS_LINK_BAD_ANSWER: return "BadAnswer";
        case KOLATENNIS_PAUSE_PAPER_ENDED: return "PaperEnded";
        case KOLATENNIS_PAUSE_COVER_OPEN: return "CoverOpen";
        case KOLATENNIS_PAUSE_OFFLINE: return "Offline";
        default: return "unknown";
    }
}

/* ---- calls that keep nothing ---- */

int kolatennis_encode(const kolatennis_options *options, const uint8_t *json, size_t json_len, uint8_t *out, size_t capacity, size_t *written, uint32_t *reason, size_t *at) {
    size_t len = 0, place = KOLATENNIS_NO_PLACE;
    uint32_t why = 0;
    int status = is_buffer(json, json_len) && is_buffer(out, capacity) ? escpos_encode_with(or_usual(options), or_none(json), json_len, or_no_room(out), capacity, &len, &why, &place) : BAD_ARGUMENT;
    TELL(written, len);
    TELL(reason, reason_in(RECEIPT, why));
    TELL(at, place);
    return status;
}

int kolatennis_listing(const uint8_t *bytes, size_t len, uint8_t *out, size_t capacity, size_t *written) {
    size_t text_len = 0;
    int status = is_buffer(bytes, len) && is_buffer(out, capacity) ? escpos_listing(or_none(bytes), len, or_no_room(out), capacity, &text_len) : BAD_ARGUMENT;
    TELL(written, text_len);
    return status;
}

int kolatennis_paper(uint16_t width, const uint8_t *bytes, size_t len, uint8_t *out, size_t capacity, size_t *written) {
    size_t text_len = 0;
    int status = is_buffer(bytes, len) && is_buffer(out, capacity) ? escpos_paper_at(width, or_none(bytes), len, or_no_room(out), capacity, &text_len) : BAD_ARGUMENT;
    TELL(written, text_len);
    return status;
}

int kolatennis_paper_text(uint16_t width, const uint8_t *bytes, size_t len, uint8_t *out, size_t capacity, size_t *written) {
    size_t text_len = 0;
    int status = is_buffer(bytes, len) && is_buffer(out, capacity) ? escpos_paper_text_at(width, or_none(bytes), len, or_no_room(out), capacity, &text_len) : BAD_ARGUMENT;
    TELL(written, text_len);
    return status;
}

int kolatennis_picture(uint16_t width, const uint8_t *bytes, size_t len, uint8_t *out, size_t capacity, size_t *written) {
    size_t text_len = 0;
    int status = is_buffer(bytes, len) && is_buffer(out, capacity) ? escpos_picture_at(width, or_none(bytes), len, or_no_room(out), capacity, &text_len) : BAD_ARGUMENT;
    TELL(written, text_len);
    return status;
}

int kolatennis_image(uint16_t width, uint8_t threshold, const uint8_t *bytes, size_t len, uint8_t *out, size_t capacity, size_t *written) {
    size_t text_len = 0;
    int status = is_buffer(bytes, len) && is_buffer(out, capacity) ? escpos_image(width, threshold, or_none(bytes), len, or_no_room(out), capacity, &text_len) : BAD_ARGUMENT;
    TELL(written, text_len);
    return status;
}

/* ---- a host ---- */

int kolatennis_host_new(kolatennis_host *host, uint32_t first_mark) { return kolatennis_host_resume(host, first_mark, 0); }

int kolatennis_host_resume(kolatennis_host *host, uint32_t first_mark, size_t records) {
    if (!host) return BAD_ARGUMENT;
    host->at = NULL;
    return escpos_host_resume(host, first_mark, records);
}

void kolatennis_host_free(kolatennis_host *host) {
    if (host) escpos_host_free(host);
}

int kolatennis_host_link_up(kolatennis_host *host, uint32_t *reason) {
    uint32_t why = 0;
    int status = host ? escpos_host_link_up(host, &why) : BAD_ARGUMENT;
    TELL(reason, reason_in(HOST, why));
    return status;
}

int kolatennis_host_nudge(kolatennis_host *host, uint32_t *reason) {
    uint32_t why = 0;
    int status = host ? escpos_host_nudge(host, &why) : BAD_ARGUMENT;
    TELL(reason, reason_in(HOST, why));
    return status;
}

int kolatennis_host_submit(kolatennis_host *host, const kolatennis_options *options, const uint8_t *json, size_t json_len, uint32_t *reason, size_t *at) {
    uint32_t why = 0, fault = 0;
    size_t place = KOLATENNIS_NO_PLACE;
    int status = host && is_buffer(json, json_len) ? escpos_host_submit_with(host, or_usual(options), or_none(json), json_len, &why, &fault, &place) : BAD_ARGUMENT;
    TELL(reason, fault ? reason_in(RECEIPT, fault) : reason_in(HOST, why));
    TELL(at, place);
    return status;
}

int kolatennis_host_submit_raw(kolatennis_host *host, uint16_t width, const uint8_t *bytes, size_t len, uint32_t *reason, size_t *at) {
    uint32_t why = 0, fault = 0;
    size_t place = KOLATENNIS_NO_PLACE;
    int status = host && is_buffer(bytes, len) ? escpos_host_submit_raw(host, width, or_none(bytes), len, &why, &fault, &place) : BAD_ARGUMENT;
    TELL(reason, fault ? receipt_reason(fault) : reason_in(HOST, why));
    TELL(at, place);
    return status;
}

int kolatennis_host_ask(kolatennis_host *host, uint8_t kind, uint32_t *reason) {
    uint32_t why = 0;
    int status = host ? escpos_host_ask(host, kind, &why) : BAD_ARGUMENT;
    TELL(reason, reason_in(HOST, why));
    return status;
}

int kolatennis_host_link_down(kolatennis_host *host) { return host ? escpos_host_link_down(host) : BAD_ARGUMENT; }

int kolatennis_host_take_out(kolatennis_host *host, uint8_t *out, size_t capacity, size_t *written) {
    size_t len = 0;
    int status = host && is_buffer(out, capacity) ? escpos_host_take_out(host, or_no_room(out), capacity, &len) : BAD_ARGUMENT;
    TELL(written, len);
    return status;
}

int kolatennis_host_has_out(kolatennis_host *host, bool *has) {
    bool is = false;
    int status = host ? escpos_host_has_out(host, &is) : BAD_ARGUMENT;
    TELL(has, is);
    return status;
}

int kolatennis_host_heard(kolatennis_host *host, const uint8_t *bytes, size_t len, size_t *consumed, uint32_t *event, size_t *number) {
    size_t taken = 0, with = 0;
    uint32_t kind = 0;
    int status = host && is_buffer(bytes, len) ? escpos_host_heard(host, or_none(bytes), len, &taken, &kind, &with) : BAD_ARGUMENT;
    TELL(consumed, taken);
    TELL(event, EVENT + kind);
    TELL(number, with);
    return status;
}

int kolatennis_host_state(kolatennis_host *host, uint32_t *state) {
    uint32_t stands = 0;
    int status = host ? escpos_host_state(host, &stands) : BAD_ARGUMENT;
    TELL(state, STATE + stands);
    return status;
}

int kolatennis_host_next_mark(kolatennis_host *host, uint32_t *mark) {
    uint32_t next = 0;
    int status = host ? escpos_host_next_mark(host, &next) : BAD_ARGUMENT;
    TELL(mark, next);
    return status;
}

int kolatennis_host_records(kolatennis_host *host, size_t *records) {
    size_t count = 0;
    int status = host ? escpos_host_records(host, &count) : BAD_ARGUMENT;
    TELL(records, count);
    return status;
}

/* ---- a printer ---- */

int kolatennis_printer_new(kolatennis_printer *printer, const kolatennis_sensors *sensors, uint16_t width) {
    if (!printer) return BAD_ARGUMENT;
    printer->at = NULL;
    return escpos_printer_new_at(printer, or_fine(sensors), width);
}

void kolatennis_printer_free(kolatennis_printer *printer) {
    if (printer) escpos_printer_free(printer);
}

int kolatennis_printer_feed(kolatennis_printer *printer, const uint8_t *bytes, size_t len, size_t *consumed, uint32_t *stop, uint32_t *reason, size_t *at) {
    size_t taken = 0, place = KOLATENNIS_NO_PLACE;
    uint32_t kind = 0, why = 0;
    int status = printer && is_buffer(bytes, len) ? escpos_printer_feed(printer, or_none(bytes), len, &taken, &kind, &why, &place) : BAD_ARGUMENT;
    TELL(consumed, taken);
    TELL(stop, STOP + kind);
    TELL(reason, reason_in(FAULT, why));
    TELL(at, place);
    return status;
}

int kolatennis_printer_take_answer(kolatennis_printer *printer, uint8_t *out, size_t capacity, size_t *written) {
    size_t len = 0;
    int status = printer && is_buffer(out, capacity) ? escpos_printer_take_answer(printer, or_no_room(out), capacity, &len) : BAD_ARGUMENT;
    TELL(written, len);
    return status;
}

int kolatennis_printer_set_condition(kolatennis_printer *printer, const kolatennis_sensors *sensors) {
    return printer ? escpos_printer_set_condition(printer, or_fine(sensors)) : BAD_ARGUMENT;
}

int kolatennis_printer_paper(kolatennis_printer *printer, uint8_t *out, size_t capacity, size_t *written) {
    size_t len = 0;
    int status = printer && is_buffer(out, capacity) ? escpos_printer_paper(printer, or_no_room(out), capacity, &len) : BAD_ARGUMENT;
    TELL(written, len);
    return status;
}

int kolatennis_printer_tear_off(kolatennis_printer *printer) { return printer ? escpos_printer_tear_off(printer) : BAD_ARGUMENT; }

/* ---- a till ---- */

static const till_told NOTHING_TOLD = {0, 0, KOLATENNIS_NO_PLACE, 0};

/* Why a till refuses: a receipt's fault has its own reason, and so have mark numbers that are used up. */
static uint32_t till_reason(const till_told *told) {
    if (told->fault) return receipt_reason(told->fault);
    return told->reason == 5 ? KOLATENNIS_HOST_MARKS_USED_UP : reason_in(TILL, told->reason);
}

/* Why a receipt waits: what a host refused has its own reason, and out of memory a status. That a store failed has none. */
static uint32_t link_fault(uint32_t fault) {
    if (fault == 14 || fault == 21) return KOLATENNIS_STATUS_MEMORY;
    if (fault > 30) return PAUSE + fault - 30;
    if (fault > 20) return 0;
    return fault > 10 ? HOST + fault - 10 : reason_in(LINK, fault);
}

int kolatennis_till_new(kolatennis_till *till) { return kolatennis_till_open(till, NULL, 0, NULL, NULL); }

int kolatennis_till_open(kolatennis_till *till, const uint8_t *lines, size_t len, uint32_t *reason, size_t *at) {
    uint32_t why = 0;
    size_t place = KOLATENNIS_NO_PLACE;
    if (till) till->at = NULL;
    int status = till && is_buffer(lines, len) ? escpos_till_open(till, or_none(lines), len, &why, &place) : BAD_ARGUMENT;
    TELL(reason, reason_in(TILL, why));
    TELL(at, place);
    return status;
}

void kolatennis_till_free(kolatennis_till *till) {
    if (till) escpos_till_free(till);
}

int kolatennis_till_queue(kolatennis_till *till, const kolatennis_options *options, const uint8_t *json, size_t json_len, uint32_t *reason, size_t *at) {
    till_told told = NOTHING_TOLD;
    int status = till && is_buffer(json, json_len) ? escpos_till_queue(till, or_usual(options), or_none(json), json_len, &told) : BAD_ARGUMENT;
    TELL(reason, till_reason(&told));
    TELL(at, told.at);
    return status;
}

int kolatennis_till_queue_keyed(kolatennis_till *till, const kolatennis_options *options, const uint8_t *json, size_t json_len, const uint8_t *key, size_t key_len, uint32_t *reason, size_t *at) {
    till_told told = NOTHING_TOLD;
    bool is_good = till && is_buffer(json, json_len) && is_buffer(key, key_len);
    int status = is_good ? escpos_till_queue_keyed(till, or_usual(options), or_none(json), json_len, or_none(key), key_len, &told) : BAD_ARGUMENT;
    TELL(reason, till_reason(&told));
    TELL(at, told.at);
    return status;
}

int kolatennis_till_queue_raw(kolatennis_till *till, uint16_t width, const uint8_t *bytes, size_t len, uint32_t *reason, size_t *at) {
    till_told told = NOTHING_TOLD;
    int status = till && is_buffer(bytes, len) ? escpos_till_queue_raw(till, width, or_none(bytes), len, &told) : BAD_ARGUMENT;
    TELL(reason, till_reason(&told));
    TELL(at, told.at);
    return status;
}

int kolatennis_till_raise(kolatennis_till *till, uint32_t first, uint32_t *reason, uint32_t *next) {
    till_told told = NOTHING_TOLD;
    int status = till ? escpos_till_raise(till, first, &told) : BAD_ARGUMENT;
    TELL(reason, till_reason(&told));
    TELL(next, told.next);
    return status;
}

int kolatennis_till_cancel(kolatennis_till *till, size_t number, uint32_t *reason) {
    till_told told = NOTHING_TOLD;
    int status = till ? escpos_till_cancel(till, number, &told) : BAD_ARGUMENT;
    TELL(reason, till_reason(&told));
    return status;
}

int kolatennis_till_deliver(kolatennis_till *till, uint32_t openings, const uint8_t *copy, size_t copy_len, uint32_t most, uint32_t *reason, size_t *at) {
    till_told told = NOTHING_TOLD;
    int status = till && is_buffer(copy, copy_len) ? escpos_till_deliver(till, openings, or_none(copy), copy_len, most, &told) : BAD_ARGUMENT;
    TELL(reason, till_reason(&told));
    TELL(at, told.at);
    return status;
}

int kolatennis_till_asks(kolatennis_till *till, kolatennis_asked *asked) {
    kolatennis_asked asks = {0, 0, 0, 0};
    int status = till ? escpos_till_asks(till, &asks) : BAD_ARGUMENT;
    asks.ask += ASK;
    asks.note += NOTE;
    asks.fault = link_fault(asks.fault);
    TELL(asked, asks);
    return status;
}

int kolatennis_till_append(kolatennis_till *till, uint8_t *out, size_t capacity, size_t *written) {
    size_t len = 0;
    int status = till && is_buffer(out, capacity) ? escpos_till_append(till, or_no_room(out), capacity, &len) : BAD_ARGUMENT;
    TELL(written, len);
    return status;
}

int kolatennis_till_appended(kolatennis_till *till, bool kept) { return till ? escpos_till_appended(till, kept) : BAD_ARGUMENT; }

int kolatennis_till_connected(kolatennis_till *till, bool is) { return till ? escpos_till_connected(till, is) : BAD_ARGUMENT; }

int kolatennis_till_take_out(kolatennis_till *till, uint8_t *out, size_t capacity, size_t *written) {
    size_t len = 0;
    int status = till && is_buffer(out, capacity) ? escpos_till_take_out(till, or_no_room(out), capacity, &len) : BAD_ARGUMENT;
    TELL(written, len);
    return status;
}

int kolatennis_till_came(kolatennis_till *till, const uint8_t *bytes, size_t len, size_t *consumed) {
    size_t taken = 0;
    int status = till && is_buffer(bytes, len) ? escpos_till_came(till, or_none(bytes), len, &taken) : BAD_ARGUMENT;
    TELL(consumed, taken);
    return status;
}

int kolatennis_till_link_ended(kolatennis_till *till, uint32_t why) {
    if (!till) return BAD_ARGUMENT;
    return escpos_till_link_ended(till, why > LINK ? why - LINK : 0);
}

int kolatennis_till_hung_up(kolatennis_till *till) { return till ? escpos_till_hung_up(till) : BAD_ARGUMENT; }

int kolatennis_till_told(kolatennis_till *till) { return till ? escpos_till_told(till) : BAD_ARGUMENT; }

int kolatennis_till_receipts(kolatennis_till *till, size_t *receipts) {
    size_t count = 0;
    int status = till ? escpos_till_receipts(till, &count) : BAD_ARGUMENT;
    TELL(receipts, count);
    return status;
}

int kolatennis_till_state(kolatennis_till *till, size_t number, uint32_t *state, size_t *count) {
    till_standing standing = {0, 0};
    int status = till ? escpos_till_standing(till, number, &standing) : BAD_ARGUMENT;
    TELL(state, STANDS + standing.kind);
    TELL(count, standing.number);
    return status;
}

int kolatennis_till_is_paused(kolatennis_till *till, bool *is) {
    bool paused = false;
    int status = till ? escpos_till_is_paused(till, &paused) : BAD_ARGUMENT;
    TELL(is, paused);
    return status;
}

int kolatennis_till_next_mark(kolatennis_till *till, uint32_t *mark) {
    uint32_t next = 0;
    int status = till ? escpos_till_next_mark(till, &next) : BAD_ARGUMENT;
    TELL(mark, next);
    return status;
}

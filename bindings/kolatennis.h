/* kolatennis.h: the cores of a receipt line, for tills in C and in languages that call C.
 *
 * The library does no I/O: it opens nothing, waits for nothing, calls nothing but malloc, realloc, free, memcpy, memmove and memset,
 * and keeps no pointer that it was given. The caller keeps its own loop, sockets and threads. A call takes up to 256 KiB of stack.
 *
 * Status. Every call that returns an int returns a KOLATENNIS_STATUS_*: 0 if it is done; at any other, no host, printer, till or handle has
 * changed. Statuses, reasons, events, states, stops, asks and notes are numbers of ranges that don't overlap.
 *
 * Buffers. A buffer is a pointer and its length in bytes. What is written stands at the start of `out`, `written` is its length, and
 * the rest of `out` is as it was. Where nothing is written, all of it is as it was, and `written` is 0, but at 5 the length that is
 * needed: so a call with capacity 0 asks for it. No two arguments may overlap, unless both are only read.
 *
 * Results. Every call sets each of its results, whatever its status. Where there is nothing to tell, a count, a number or a reason is 0,
 * a place KOLATENNIS_NO_PLACE, and an event, a state, a stop, an ask or a note the first of its kind.
 *
 * NULL. A buffer of length 0 may be NULL, and so may the place of any result that isn't wanted, options (the usual ones) and sensors
 * (all false). To free NULL does nothing. With any other NULL a call answers KOLATENNIS_STATUS_BAD_ARGUMENT.
 *
 * Handles. A handle is a small struct of the caller's: begin with KOLATENNIS_INIT, pass its address, never copy it, and free what it
 * holds in the end. The calls that make a host, a printer or a till only write to the handle, which may be uninitialised: what it held before
 * isn't freed, so free a handle before it is made anew. If such a call fails, the handle holds nothing.
 *
 * Threads. Calls may be made from any thread, and a handle may move between threads. It takes one call at a time: threads that share
 * a handle need a lock.
 *
 * Signals and fork. A signal handler may make no call but kolatennis_version and kolatennis_error_name, since others may allocate.
 * After fork each handle is there twice: two hosts or tills that would use the same mark numbers. Only one process may go on with it; the child
 * of a process with threads may make no call. */
#ifndef KOLATENNIS_H
#define KOLATENNIS_H

#include <stdbool.h>
#include <stddef.h>
#include <stdint.h>

#if defined(__GNUC__)
#define KOLATENNIS_API __attribute__((visibility("default")))
#else
#define KOLATENNIS_API
#endif

#ifdef __cplusplus
extern "C" {
#endif

/* The version of this header. 1.4.0 is 10400. */
#define KOLATENNIS_VERSION "1.4.0"
#define KOLATENNIS_VERSION_NUMBER 10400

/* The version of the library that runs, as KOLATENNIS_VERSION. The string is never freed. */
KOLATENNIS_API const char *kolatennis_version(void);

enum kolatennis_status {
    KOLATENNIS_STATUS_GOOD = 0,
    KOLATENNIS_STATUS_REFUSED = 1,     /* what was given isn't what it should be, or can't be done now: `reason` or the text says why */
    KOLATENNIS_STATUS_EMPTY = 2,       /* the handle holds nothing: nothing was put into it, or it was freed */
    KOLATENNIS_STATUS_MEMORY = 4,      /* out of memory */
    KOLATENNIS_STATUS_SHORT = 5,       /* `out` is too short: it must have `written` bytes */
    KOLATENNIS_STATUS_TOO_LONG = 6,    /* the text would have more than 268,435,456 bytes */
    KOLATENNIS_STATUS_BAD_ARGUMENT = 7 /* a pointer is NULL that may not be */
};

/* Why a text gives no receipt, or a stream is none. The place counts entries of the text, or (102, 104, 109 and 110) commands, from 0; in
 * a stream it counts bytes. */
enum kolatennis_receipt {
    KOLATENNIS_RECEIPT_EMPTY = 101,        /* it has no command */
    KOLATENNIS_RECEIPT_FORBIDDEN = 102,    /* a command that a receipt may not have */
    KOLATENNIS_RECEIPT_TEXT_LEFT = 103,    /* the last line isn't ended */
    KOLATENNIS_RECEIPT_MID_LINE = 104,     /* a barcode, picture, QR code or cut while text is in the line */
    KOLATENNIS_RECEIPT_NOT_JSON = 105,     /* not JSON in UTF-8 */
    KOLATENNIS_RECEIPT_BAD_SHAPE = 106,    /* not an array, or an entry that isn't one of a receipt's */
    KOLATENNIS_RECEIPT_CONTROL_BYTE = 107, /* a character below 20 (hexadecimal) in a text */
    KOLATENNIS_RECEIPT_NO_CHARACTER = 108, /* a character that no code table of the choice has */
    KOLATENNIS_RECEIPT_REAL_TIME = 109,    /* a command whose data hold a real-time command, which the printer would carry out */
    KOLATENNIS_RECEIPT_NOT_PRINTABLE = 110, /* a barcode or QR code that a printer with lines of this width leaves out */
    KOLATENNIS_RECEIPT_TOO_LONG = 111,     /* more than 16,777,216 bytes */
    KOLATENNIS_RECEIPT_BAD_OPTIONS = 112,  /* not the text: the options are out of range */
    KOLATENNIS_RECEIPT_CUT_SHORT = 126     /* the stream ends within the command that begins at the place */
};

/* Why a host refuses a call. */
enum kolatennis_host_reason {
    KOLATENNIS_HOST_NOT_READY = 201,      /* not in this state */
    KOLATENNIS_HOST_MARKS_USED_UP = 202,  /* no number of a mark is left: 1,679,616 are out since the last one that was answered */
    KOLATENNIS_HOST_ALREADY_UP = 203,     /* there is a link */
    KOLATENNIS_HOST_IN_FLIGHT_FULL = 206, /* four receipts are in flight */
    KOLATENNIS_HOST_NO_KIND = 209         /* no such kind of status request */
};

/* Why no command goes on with a byte. */
enum kolatennis_fault {
    KOLATENNIS_FAULT_UNKNOWN_BYTE = 301,
    KOLATENNIS_FAULT_UNKNOWN_COMMAND = 302,
    KOLATENNIS_FAULT_BAD_PARAMETER = 303,
    KOLATENNIS_FAULT_BAD_BARCODE = 304,
    KOLATENNIS_FAULT_BAD_SIZE = 305
};

/* Why a till refuses a call. */
enum kolatennis_till_reason {
    KOLATENNIS_TILL_BUSY = 701,          /* it asks for something that isn't done yet */
    KOLATENNIS_TILL_FAILED = 702,        /* it isn't known whether an entry is kept: open a till of the entries that are there */
    KOLATENNIS_TILL_NOTHING_WAITS = 703, /* no receipt waits */
    KOLATENNIS_TILL_MARK_REUSED = 706,   /* the mark number is lower than the next one */
    KOLATENNIS_TILL_BAD_COPY = 707,      /* the text of a copy isn't 1 to 42 characters, each 20 to 7E (hexadecimal) */
    KOLATENNIS_TILL_DAMAGED = 708,       /* a line is no entry, or one that may not come after those before it */
    KOLATENNIS_TILL_MARK_TOO_HIGH = 709, /* the mark number leaves fewer than a try takes */
    KOLATENNIS_TILL_NOT_TAKEN = 710,     /* no receipt has this number */
    KOLATENNIS_TILL_RECORDED = 711,      /* the receipt is recorded */
    KOLATENNIS_TILL_CANCELLED = 712,     /* the receipt is cancelled already */
    KOLATENNIS_TILL_BAD_KEY = 713,       /* the key of a receipt isn't 1 to 64 characters, each 21 to 7E (hexadecimal) */
    KOLATENNIS_TILL_EARLIER = 714        /* an older ledger has taken the receipt */
};

/* Why a link ended; its owner may say the first four. */
enum kolatennis_link {
    KOLATENNIS_LINK_ENDED = 1001,            /* the printer closed it */
    KOLATENNIS_LINK_READ_FAULT = 1002,       /* it can't be read */
    KOLATENNIS_LINK_WRITE_FAULT = 1003,      /* it can't be written */
    KOLATENNIS_LINK_TIMED_OUT = 1004,        /* it was waited for as long as may be */
    KOLATENNIS_LINK_TOO_MANY_ANSWERS = 1005, /* as many bytes of answers were read as may be */
    KOLATENNIS_LINK_BAD_ANSWER = 1006        /* a byte fits no answer */
};

/* The name of a status, or of a reason (RECEIPT, HOST, FAULT, TILL, LINK), as the program and the Python module spell it; "unknown" for any other
 * number. The string is never freed. */
KOLATENNIS_API const char *kolatennis_error_name(uint32_t reason);

/* A place that isn't there. */
#define KOLATENNIS_NO_PLACE SIZE_MAX

/* ---- Calls that keep nothing ----
 *
 * A width is the dots of a line on the printer's paper, 1 to 1,024; 0 stands for 512. Printers of paper 80 mm wide mostly have 576 or
 * 512, those of paper 58 mm wide 384. */

/* How a receipt's text is read. All zero is the same as NULL: what holds where nothing is said. */
typedef struct {
    uint16_t width;      /* layouts are as wide as a line of so many dots */
    uint8_t replacement; /* printed for a character that no code table of the choice has, 0x20 to 0x7E; 0: such a text is refused */
} kolatennis_options;

/* The bytes of the receipt that a text in JSON describes. At 1 `reason` is a RECEIPT reason, and `at` its place. `options` may be
 * NULL. */
KOLATENNIS_API int kolatennis_encode(const kolatennis_options *options, const uint8_t *json, size_t json_len, uint8_t *out, size_t capacity, size_t *written, uint32_t *reason, size_t *at);

/* The commands of a stream, a line for each. At 0 all is read. At 1 the listing is in the buffer, too, and its last line says where
 * the stream stops and why; a stream of more than 16,777,216 bytes has the one line `refused input`. */
KOLATENNIS_API int kolatennis_listing(const uint8_t *bytes, size_t len, uint8_t *out, size_t capacity, size_t *written);

/* The paper that a stream prints, in lines of this width: as text; as plain text, which has rows without styles, in the characters
 * that they show, in UTF-8; and as a picture in SVG. 1 is as for kolatennis_listing, but where the width is out of range nothing is
 * written. */
KOLATENNIS_API int kolatennis_paper(uint16_t width, const uint8_t *bytes, size_t len, uint8_t *out, size_t capacity, size_t *written);
KOLATENNIS_API int kolatennis_paper_text(uint16_t width, const uint8_t *bytes, size_t len, uint8_t *out, size_t capacity, size_t *written);
KOLATENNIS_API int kolatennis_picture(uint16_t width, const uint8_t *bytes, size_t len, uint8_t *out, size_t capacity, size_t *written);

/* The entries of a receipt's text that print a picture, the bytes of a file of PBM, PGM or PPM, with a comma between two: `[` before
 * them and `]` after them make a text. The picture is scaled down to the width if it is wider, and black where its gray value, 0 to
 * 255, is below the threshold, 1 to 255; with threshold 0, by error diffusion. At 1 the buffer has the one line that says why the
 * bytes are no picture, or nothing where the width is out of range. */
KOLATENNIS_API int kolatennis_image(uint16_t width, uint8_t threshold, const uint8_t *bytes, size_t len, uint8_t *out, size_t capacity, size_t *written);

/* ---- A host: the till's end of a line ----
 *
 * It says what to send, and when a receipt is printed. A till opens a link, calls kolatennis_host_link_up, and then goes on like this:
 * it sends what kolatennis_host_take_out gives, and hands what it receives to kolatennis_host_heard, from where the last call stopped.
 * Once the event is EVENT_OPENED it submits receipts; EVENT_RECORDED says that one in flight is on the paper, with those before it. If a
 * link breaks it calls kolatennis_host_link_down; what was in flight and isn't recorded may have been printed or not. If the printer
 * answers for it on the next link, before that is open, EVENT_RECORDED says that it is printed: don't submit it again then.
 *
 * No number of a mark may ever be used twice with a printer. So each time that kolatennis_host_take_out may give bytes, before the
 * first of them is sent, a till keeps what kolatennis_host_next_mark says where it survives a crash, and gives that to the host of its
 * next run as `first_mark`.
 *
 * A host keeps the receipts that it recorded: a till that runs for long makes a new one between two links, by kolatennis_host_resume
 * with the next mark and the number of records. */
typedef struct {
    void *at; /* the library's own */
} kolatennis_host;

/* What a handle is made of while it holds nothing: kolatennis_host host = KOLATENNIS_INIT; */
#define KOLATENNIS_INIT { 0 }

/* What a host hears. */
enum kolatennis_event {
    KOLATENNIS_EVENT_NONE = 400,
    KOLATENNIS_EVENT_OPENED = 401,     /* the link is open */
    KOLATENNIS_EVENT_RECORDED = 402,   /* a receipt in flight is printed, or before the link is open one that was in flight when the last
                                        * open link was lost, and so are those submitted before it: `number` is its record, from 0 */
    KOLATENNIS_EVENT_STATUS = 403,     /* the printer sent the status byte `number` */
    KOLATENNIS_EVENT_BAD_ANSWER = 404, /* the byte at place `number` of these bytes fits no answer: the link is given up, close it */
    KOLATENNIS_EVENT_LATE = 405,       /* before the link is open, another mark `number` of an older link is answered: all before it is
                                        * printed; 0, which closes no receipt, where no mark has the answer's id */
    KOLATENNIS_EVENT_CONDITION = 406   /* the printer sent a block of automatic status: `number` is its four bytes, the first highest */
};

/* Where a host stands with its link. */
enum kolatennis_state {
    KOLATENNIS_STATE_DOWN = 500,    /* there is none */
    KOLATENNIS_STATE_OPENING = 501, /* no opening mark is answered yet */
    KOLATENNIS_STATE_READY = 502,   /* it is open, and no receipt is in flight */
    KOLATENNIS_STATE_SENDING = 503  /* it is open, and one to four receipts are in flight */
};

/* Makes a host. `resume` is for a till that has `records` receipts recorded already: the next one gets this number. */
KOLATENNIS_API int kolatennis_host_new(kolatennis_host *host, uint32_t first_mark);
KOLATENNIS_API int kolatennis_host_resume(kolatennis_host *host, uint32_t first_mark, size_t records);

/* Frees the host; the handle holds nothing then. If it held nothing, nothing happens. */
KOLATENNIS_API void kolatennis_host_free(kolatennis_host *host);

/* Opens a link: puts one opening mark out. At 1 `reason` is a HOST reason, here and below. */
KOLATENNIS_API int kolatennis_host_link_up(kolatennis_host *host, uint32_t *reason);

/* Puts one more opening mark out; possible while none is answered. A printer may still wait for the rest of a command that an older
 * link cut off, and takes the first marks for that: so put out a few. */
KOLATENNIS_API int kolatennis_host_nudge(kolatennis_host *host, uint32_t *reason);

/* Puts the receipt that a text in JSON describes out, after Init and before its closing mark; possible while the link is open and fewer
 * than four are in flight. At 1 either the text describes none: `reason` is a RECEIPT reason, `at` its place; or the host takes none
 * now: `reason` is a HOST reason. `options` may be NULL. */
KOLATENNIS_API int kolatennis_host_submit(kolatennis_host *host, const kolatennis_options *options, const uint8_t *json, size_t json_len, uint32_t *reason, size_t *at);

/* The same of a stream of bytes, as another library makes it for lines of `width` dots (0 stands for 512): it is a receipt if its
 * commands are one without each ESC @ at the beginning and at the end, GS a and DLE EOT. At 1 `reason` may also be a FAULT reason, of a
 * byte that is refused, and `at` counts the bytes of the stream, up to the first one of the command. */
KOLATENNIS_API int kolatennis_host_submit_raw(kolatennis_host *host, uint16_t width, const uint8_t *bytes, size_t len, uint32_t *reason, size_t *at);

/* Puts a status request of a kind from 1 to 4 out; possible while the link is open and no receipt is in flight. */
KOLATENNIS_API int kolatennis_host_ask(kolatennis_host *host, uint8_t kind, uint32_t *reason);

/* Gives the link up. With no link nothing changes. */
KOLATENNIS_API int kolatennis_host_link_down(kolatennis_host *host);

/* Moves the next bytes for the link into the buffer, as many as there are and fit. It never answers 5. */
KOLATENNIS_API int kolatennis_host_take_out(kolatennis_host *host, uint8_t *out, size_t capacity, size_t *written);

/* Whether there are bytes for the link. */
KOLATENNIS_API int kolatennis_host_has_out(kolatennis_host *host, bool *has);

/* Hears bytes from the link, up to the first event: `consumed` of them. With no link all are taken and ignored. */
KOLATENNIS_API int kolatennis_host_heard(kolatennis_host *host, const uint8_t *bytes, size_t len, size_t *consumed, uint32_t *event, size_t *number);

/* Where the host stands, the number of its next mark, and how many receipts are recorded, those of before among them. */
KOLATENNIS_API int kolatennis_host_state(kolatennis_host *host, uint32_t *state);
KOLATENNIS_API int kolatennis_host_next_mark(kolatennis_host *host, uint32_t *mark);
KOLATENNIS_API int kolatennis_host_records(kolatennis_host *host, size_t *records);

/* ---- A printer, for emulators: it takes a stream in pieces, prints, and answers ---- */
typedef struct {
    void *at; /* the library's own */
} kolatennis_printer;

/* What the sensors of a printer say. */
typedef struct {
    bool cover_open;
    bool near_end;  /* the paper is near its end */
    bool paper_end; /* it is out of paper */
} kolatennis_sensors;

/* Why a printer took no more bytes. */
enum kolatennis_stop {
    KOLATENNIS_STOP_ALL = 600,          /* it took all of them */
    KOLATENNIS_STOP_ANSWERS_FULL = 601, /* sixteen answers wait: take some */
    KOLATENNIS_STOP_OFFLINE = 602,      /* its cover is open, or it is out of paper */
    KOLATENNIS_STOP_FAULT = 603,        /* no command goes on with the byte at `at`: skip it, or feed it again as the first of a command */
    KOLATENNIS_STOP_MEMORY = 604        /* out of memory for the next byte */
};

/* Makes a printer whose lines have this width, switched on with nothing on its paper. Where the width is out of range it answers 1.
 * `sensors` may be NULL. */
KOLATENNIS_API int kolatennis_printer_new(kolatennis_printer *printer, const kolatennis_sensors *sensors, uint16_t width);

/* Frees the printer; the handle holds nothing then. If it held nothing, nothing happens. */
KOLATENNIS_API void kolatennis_printer_free(kolatennis_printer *printer);

/* Feeds bytes of a stream, up to the first that can't be taken now. `consumed` is how many were taken, `stop` why no more were. At a
 * fault `reason` is a FAULT reason, and `at` its place. */
KOLATENNIS_API int kolatennis_printer_feed(kolatennis_printer *printer, const uint8_t *bytes, size_t len, size_t *consumed, uint32_t *stop, uint32_t *reason, size_t *at);

/* Moves the answer that has waited longest into the buffer; `written` is 0 if none waits. A buffer of less than 7 bytes, the length
 * of the longest answer, is too short. */
KOLATENNIS_API int kolatennis_printer_take_answer(kolatennis_printer *printer, uint8_t *out, size_t capacity, size_t *written);

/* Sets what the sensors say. `sensors` may be NULL. */
KOLATENNIS_API int kolatennis_printer_set_condition(kolatennis_printer *printer, const kolatennis_sensors *sensors);

/* What is on the paper, as text, as kolatennis_paper gives it. */
KOLATENNIS_API int kolatennis_printer_paper(kolatennis_printer *printer, uint8_t *out, size_t capacity, size_t *written);

/* Drops what is on the paper. */
KOLATENNIS_API int kolatennis_printer_tear_off(kolatennis_printer *printer);

/* ---- A till with one printer ----
 *
 * All that a till does with a printer, but for I/O: it takes receipts, delivers them one at a time, and knows which are printed. It
 * asks for one thing at a time. Its owner calls kolatennis_till_queue, _raise, _cancel or _deliver, and then, until it asks for
 * nothing, does what kolatennis_till_asks says, and says what came of it:
 *
 *   ASK_APPEND   keep the line that _append gives after those before it, so that it outlives a crash; then call _appended
 *   ASK_CONNECT  open a link to the printer; then call _connected
 *   ASK_PUT      send all that _take_out gives, in order; if that can't be done, call _link_ended
 *   ASK_WAIT     read what the printer sends, `number` bytes at most, and hand it to _came; if nothing comes, call _link_ended
 *   ASK_HANG_UP  close the link; then call _hung_up
 *   ASK_TELL     see what `note` says; then call _told
 *
 * Entries. What a till has to remember is its entries. Each is a line of text, which ends with a newline and has no other: a row of a
 * table, or a line of a file. All lines that are kept, in order, make the till of the next run, by kolatennis_till_open; none, one that
 * is new. No line is ever changed or removed. A line that was half written when a crash came was never said to be kept, so whoever
 * opens the entries cuts off what stands after the last newline. What is read may not be on the disk yet, if the run before ended within
 * an append: call fsync before kolatennis_till_open. One till at a time may have the entries, in one process: lock them.
 *
 * Crashes. kolatennis_till_appended(till, true) may be called only once the entry would outlive a crash, in a file after fsync (for the
 * first entry of a new file, of its folder too). No byte of a receipt goes out before an entry says that it is tried, with the mark
 * numbers that its link uses; a receipt is recorded only once the printer has said that it is printed. Each try takes as many numbers as it
 * puts opening marks, and one; at most 1,679,616 may be tried since the last record, so wait a while before the same receipt is tried again.
 *
 * Bytes. kolatennis_till_came may take less than it is given. While the till asks for ASK_PUT or ASK_WAIT, the others must be given
 * again, before any that come later; once it asks for anything else they are of no use.
 *
 * _appended, _connected, _hung_up and _told do nothing where the till asks for something else. */
typedef struct {
    void *at; /* the library's own */
} kolatennis_till;

/* What a till asks for. */
enum kolatennis_ask {
    KOLATENNIS_ASK_NOTHING = 800,
    KOLATENNIS_ASK_APPEND = 801,
    KOLATENNIS_ASK_CONNECT = 802,
    KOLATENNIS_ASK_PUT = 803,
    KOLATENNIS_ASK_WAIT = 804,
    KOLATENNIS_ASK_HANG_UP = 805,
    KOLATENNIS_ASK_TELL = 806
};

/* What a till tells its owner. `number` is the receipt's, counted from 1. */
enum kolatennis_note {
    KOLATENNIS_NOTE_NONE = 900,
    KOLATENNIS_NOTE_QUEUED = 901,   /* the receipt is taken */
    KOLATENNIS_NOTE_RAISED = 902,   /* the next mark number is raised */
    KOLATENNIS_NOTE_RECORDED = 903, /* the receipt is printed, and recorded */
    KOLATENNIS_NOTE_NO_LINK = 904,  /* there was no link. The receipt waits, and nothing of it was sent this time */
    KOLATENNIS_NOTE_WAITING = 905,  /* the receipt waits. It may be printed or not: `fault` is a LINK or HOST reason, or STATUS_MEMORY */
    KOLATENNIS_NOTE_NOT_KEPT = 906, /* it isn't known whether the entry is kept. The till has failed */
    KOLATENNIS_NOTE_CANCELLED = 907, /* the receipt is cancelled */
    KOLATENNIS_NOTE_PAUSED = 908,   /* the printer says that it prints nothing for now: `fault` is a PAUSE reason. The till goes on; wait longer for the printer */
    KOLATENNIS_NOTE_STILL_PAUSED = 909 /* the same after LINK_TIMED_OUT, while the printer said that it prints nothing: `fault` is a PAUSE reason */
};

/* Why a printer prints nothing for now. */
enum kolatennis_pause {
    KOLATENNIS_PAUSE_PAPER_ENDED = 1201, /* its paper has ended */
    KOLATENNIS_PAUSE_COVER_OPEN = 1202, /* its cover is open, and it has paper */
    KOLATENNIS_PAUSE_OFFLINE = 1203 /* it is offline for another reason */
};

/* What a till asks for. */
typedef struct {
    uint32_t ask;   /* an ASK */
    uint32_t note;  /* at ASK_TELL a NOTE */
    uint32_t fault; /* at NOTE_WAITING, NOTE_PAUSED and NOTE_STILL_PAUSED why, otherwise 0 */
    size_t number;  /* at ASK_WAIT the most bytes, at ASK_TELL the receipt's number, if the note has one; otherwise 0 */
} kolatennis_asked;

/* Where a receipt stands. */
enum kolatennis_stands {
    KOLATENNIS_STANDS_UNKNOWN = 1100, /* no receipt has this number */
    KOLATENNIS_STANDS_WAITING = 1101, /* it waits, and was tried `count` times: if that isn't 0, it may be on the paper */
    KOLATENNIS_STANDS_RECORDED = 1102, /* it is printed; `count` were recorded before it */
    KOLATENNIS_STANDS_CANCELLED = 1103 /* it was cancelled, and tried `count` times before: if that isn't 0, it may be on the paper */
};

/* Makes a till: a new one, or one of the entries that were kept, given as their lines, one after another. At 1 `reason` is
 * TILL_DAMAGED, and `at` the first line at fault, counted from 0. */
KOLATENNIS_API int kolatennis_till_new(kolatennis_till *till);
KOLATENNIS_API int kolatennis_till_open(kolatennis_till *till, const uint8_t *lines, size_t len, uint32_t *reason, size_t *at);

/* Frees the till; the handle holds nothing then. If it held nothing, nothing happens. The entries are the owner's. */
KOLATENNIS_API void kolatennis_till_free(kolatennis_till *till);

/* Takes the receipt that a text in JSON describes. At 1 either the text gives none: `reason` is a RECEIPT reason, `at` its place; or
 * `reason` is TILL_BUSY or TILL_FAILED. `options` may be NULL. */
KOLATENNIS_API int kolatennis_till_queue(kolatennis_till *till, const kolatennis_options *options, const uint8_t *json, size_t json_len, uint32_t *reason, size_t *at);

/* The same of a receipt that comes with this key, 1 to 64 characters, each 21 to 7E (hexadecimal): an entry with the key is kept before
 * it. But if a receipt has the key, whatever became of it, that is the one: no entry is kept, and its number is told as NOTE_QUEUED. So a
 * till that lost the answer may ask again. `reason` may also be TILL_BAD_KEY. */
KOLATENNIS_API int kolatennis_till_queue_keyed(kolatennis_till *till, const kolatennis_options *options, const uint8_t *json, size_t json_len, const uint8_t *key, size_t key_len, uint32_t *reason, size_t *at);

/* The same as kolatennis_till_queue of a stream of bytes, which is read, and refused, as kolatennis_host_submit_raw does it. */
KOLATENNIS_API int kolatennis_till_queue_raw(kolatennis_till *till, uint16_t width, const uint8_t *bytes, size_t len, uint32_t *reason, size_t *at);

/* Raises the number of the next mark to `first`, where those below it were used elsewhere. At 1 `reason` is TILL_BUSY, TILL_FAILED;
 * TILL_MARK_REUSED, and then `next` the next number; or TILL_MARK_TOO_HIGH, and then `next` the last that leaves enough for a try. */
KOLATENNIS_API int kolatennis_till_raise(kolatennis_till *till, uint32_t first, uint32_t *reason, uint32_t *next);

/* Cancels a receipt that waits: it isn't sent again. At 1 `reason` is TILL_BUSY, TILL_FAILED, TILL_NOT_TAKEN, TILL_EARLIER,
 * TILL_RECORDED or TILL_CANCELLED. */
KOLATENNIS_API int kolatennis_till_cancel(kolatennis_till *till, size_t number, uint32_t *reason);

/* Delivers the first receipt that waits. A printer may still wait for the rest of a command that an older link cut off, and takes the
 * first opening marks for that: so put out a few. `copy` is a line that is printed before a receipt that was tried before, 1 to 42
 * characters, each 20 to 7E (hexadecimal); of length 0, there is none. At most `most` bytes of answers are read. At 1 `reason` is
 * TILL_BUSY, TILL_FAILED, TILL_NOTHING_WAITS, TILL_BAD_COPY or HOST_MARKS_USED_UP; or the text that waits gives no receipt now: a
 * RECEIPT reason, `at` its place. */
KOLATENNIS_API int kolatennis_till_deliver(kolatennis_till *till, uint32_t openings, const uint8_t *copy, size_t copy_len, uint32_t most, uint32_t *reason, size_t *at);

/* What the till asks for. */
KOLATENNIS_API int kolatennis_till_asks(kolatennis_till *till, kolatennis_asked *asked);

/* The line of the entry that is to be kept, as often as it is wanted. At 1 none is to be kept; at 4 memory ran out. */
KOLATENNIS_API int kolatennis_till_append(kolatennis_till *till, uint8_t *out, size_t capacity, size_t *written);

/* Whether the entry would outlive a crash now. If that isn't known, the till fails, and gives its link up first. */
KOLATENNIS_API int kolatennis_till_appended(kolatennis_till *till, bool kept);

/* Whether there is a link. */
KOLATENNIS_API int kolatennis_till_connected(kolatennis_till *till, bool is);

/* Moves the next bytes for the link into the buffer, as many as there are and fit. It never answers 5. */
KOLATENNIS_API int kolatennis_till_take_out(kolatennis_till *till, uint8_t *out, size_t capacity, size_t *written);

/* Hears bytes from the link: `consumed` of them. */
KOLATENNIS_API int kolatennis_till_came(kolatennis_till *till, const uint8_t *bytes, size_t len, size_t *consumed);

/* The link has ended, for one of the first four LINK reasons; for any other number it answers 1. */
KOLATENNIS_API int kolatennis_till_link_ended(kolatennis_till *till, uint32_t why);

/* The link is given up; and the note is read. */
KOLATENNIS_API int kolatennis_till_hung_up(kolatennis_till *till);
KOLATENNIS_API int kolatennis_till_told(kolatennis_till *till);

/* Whether the printer says, over the link that there is, that it prints nothing for now. It may take minutes until somebody puts paper
 * in: at ASK_WAIT, wait for it so long. */
KOLATENNIS_API int kolatennis_till_is_paused(kolatennis_till *till, bool *is);

/* The number of the receipt that was taken last, in these entries or in an older ledger that they go on from. Where one of them stands.
 * The number of the next mark. */
KOLATENNIS_API int kolatennis_till_receipts(kolatennis_till *till, size_t *receipts);
KOLATENNIS_API int kolatennis_till_state(kolatennis_till *till, size_t number, uint32_t *state, size_t *count);
KOLATENNIS_API int kolatennis_till_next_mark(kolatennis_till *till, uint32_t *mark);

#ifdef __cplusplus
}
#endif

#endif

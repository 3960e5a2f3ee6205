/* A till with one printer over a plain socket: takes a receipt, delivers all that wait, and says of each whether it is printed.
 *
 * What it remembers is a file with a line for each entry of a till (kolatennis.h). Killed at any moment, it goes on from there with the
 * next run: no receipt that was taken is lost, no mark number is used twice, and what may be on the paper already is printed again with
 * a line that says so. One till at a time may have the file.
 *
 *   bindings/build
 *   cc -Ibindings/out -o till examples/c/till.c bindings/out/libkolatennis.a
 *   escpos_cli emulate 127.0.0.1:9100 &
 *   ./till 127.0.0.1 9100 entries.txt < examples/gate_ticket.json
 *
 * With no receipt (</dev/null) it delivers what waits. It prints `recorded N` or `waiting N WHY` of the receipt number N. All that it
 * does for one receipt takes at most ten seconds; but once the printer says that its paper has ended, or its cover is open, that is told
 * by `paused N WHY`, and the receipt is given ten minutes more. The exit status:
 *   0  no receipt waits
 *   1  refused: the text is no receipt, and wasn't taken
 *   2  the caller's own fault (arguments, input, the file)
 *   3  a receipt waits, and nothing of it was sent by this run
 *   4  a receipt waits, and may be printed
 *   5  as 0, but standard output took no word of it */
#define _GNU_SOURCE
#include "kolatennis.h"
#include <errno.h>
#include <fcntl.h>
#include <libgen.h>
#include <netdb.h>
#include <poll.h>
#include <stdio.h>
#include <stdlib.h>
#include <string.h>
#include <sys/file.h>
#include <sys/mman.h>
#include <sys/socket.h>
#include <sys/stat.h>
#include <time.h>
#include <unistd.h>

enum { DELIVERED, REFUSED, FAULT, NOT_SENT, MAY_BE_PRINTED, UNSAID };
enum { SECONDS = 10, PATIENCE = 600, OPENINGS = 3, MOST_ANSWERS = 65536 };
static kolatennis_till till = KOLATENNIS_INIT;
static uint8_t receipt[16777217]; /* a byte more than a receipt's text may have */
static uint8_t answer[256];
static size_t heard, came; /* of the answer */
static int file, outcome, is_unsaid;

static int ends(int status, const char *what, const char *why) {
    fprintf(stderr, "%s%s\n", what, why);
    return status;
}

/* ---- the file ---- */

/* Opens the file and the till of its entries, the first of which is a receipt. Half a line after the last newline is cut off: a crash came
 * while it was written, so the till was never told that it is kept. What is left is on the disk before anything rests on it. */
static int opens(const char *path) {
    char folder[4096] = "";
    struct stat is;
    file = open(path, O_RDWR | O_CREAT | O_APPEND | O_CLOEXEC, 0666);
    if (file < 0 || flock(file, LOCK_EX | LOCK_NB) || fstat(file, &is)) return ends(FAULT, path, " can't be opened, or another till has it");
    int parent = open(dirname(strncpy(folder, path, sizeof folder - 1)), O_RDONLY | O_DIRECTORY | O_CLOEXEC);
    if (parent < 0 || fsync(parent) || close(parent)) return ends(FAULT, folder, ": what is in it may not be kept");
    size_t len = is.st_size, word = len < 7 ? len : 7;
    uint8_t *lines = len ? mmap(NULL, len, PROT_READ, MAP_PRIVATE, file, 0) : NULL;
    if (lines == MAP_FAILED) return ends(FAULT, path, " can't be read");
    if (len && memcmp(lines, "queued ", word)) return ends(FAULT, path, " isn't a till's entries");
    while (len && lines[len - 1] != '\n') len--;
    if (kolatennis_till_open(&till, lines, len, NULL, NULL)) return ends(FAULT, path, " is damaged, or there is no memory for it");
    if (ftruncate(file, len) || fsync(file)) return ends(FAULT, path, " can't be written");
    return 0;
}

/* Keeps the entry that the till asks for, so that it outlives a crash. */
static bool is_kept(void) {
    size_t len = 0, done = 0;
    kolatennis_till_append(&till, NULL, 0, &len);
    uint8_t *line = malloc(len);
    if (!line || kolatennis_till_append(&till, line, len, NULL)) return false;
    for (ssize_t count; done < len && (count = write(file, line + done, len - done)) > 0;) done += count;
    free(line);
    return done == len && fsync(file) == 0;
}

/* ---- the link ---- */

static long long now(void) {
    struct timespec time;
    clock_gettime(CLOCK_MONOTONIC, &time);
    return time.tv_sec * 1000LL + time.tv_nsec / 1000000;
}

/* Waits until the link can be read or written, until this time at most. */
static int waits(int link, short events, long long end) {
    struct pollfd one = {.fd = link, .events = events};
    for (long long left; (left = end - now()) > 0;) {
        int count = poll(&one, 1, (int)left);
        if (count > 0) return 1;
        if (count < 0 && errno != EINTR) return 0;
    }
    return 0;
}

/* Returns a link, or -1 if there is none. */
static int connects(const struct addrinfo *printer, long long end) {
    int link = socket(printer->ai_family, SOCK_STREAM | SOCK_NONBLOCK | SOCK_CLOEXEC, 0), error = 0;
    socklen_t size = sizeof error;
    if (link < 0 || connect(link, printer->ai_addr, printer->ai_addrlen) == 0) return link;
    if (errno == EINPROGRESS && waits(link, POLLOUT, end) && getsockopt(link, SOL_SOCKET, SO_ERROR, &error, &size) == 0 && error == 0) return link;
    close(link);
    return -1;
}

/* Sends what the till puts out. Returns why it can't, or 0. */
static uint32_t sends(int link, long long end) {
    uint8_t piece[4096];
    size_t len, sent = 0;
    kolatennis_till_take_out(&till, piece, sizeof piece, &len);
    while (sent < len) {
        if (!waits(link, POLLOUT, end)) return KOLATENNIS_LINK_TIMED_OUT;
        ssize_t count = send(link, piece + sent, len - sent, MSG_NOSIGNAL);
        if (count < 0 && errno != EINTR && errno != EAGAIN) return KOLATENNIS_LINK_WRITE_FAULT;
        if (count > 0) sent += count;
    }
    return 0;
}

/* Hands the till what it didn't take yet of what came, or what comes next. Returns why nothing comes, or 0. */
static uint32_t hears(int link, size_t most, long long end) {
    size_t consumed;
    if (heard == came) {
        if (!waits(link, POLLIN, end)) return KOLATENNIS_LINK_TIMED_OUT;
        ssize_t count = recv(link, answer, most < sizeof answer ? most : sizeof answer, 0);
        if (count < 0) return errno == EINTR || errno == EAGAIN ? 0 : KOLATENNIS_LINK_READ_FAULT;
        if (count == 0) return KOLATENNIS_LINK_ENDED;
        heard = 0;
        came = count;
    }
    kolatennis_till_came(&till, answer + heard, came - heard, &consumed);
    heard += consumed;
    return 0;
}

/* ---- the till ---- */

static void tells(uint32_t note, size_t number, uint32_t why) {
    if (note == KOLATENNIS_NOTE_NOT_KEPT) outcome = ends(FAULT, "an entry may not be kept: ", "the next run finds it, or it doesn't");
    if (note == KOLATENNIS_NOTE_NO_LINK) outcome = NOT_SENT;
    if (note == KOLATENNIS_NOTE_WAITING || note == KOLATENNIS_NOTE_STILL_PAUSED) outcome = MAY_BE_PRINTED;
    if (note == KOLATENNIS_NOTE_PAUSED) printf("paused %zu %s\n", number, kolatennis_error_name(why));
    if (note == KOLATENNIS_NOTE_RECORDED) printf("recorded %zu\n", number);
    if (outcome >= NOT_SENT) printf("waiting %zu %s\n", number, outcome == NOT_SENT ? "NoLink" : kolatennis_error_name(why));
    is_unsaid |= fflush(stdout);
}

/* Does what the till asks for, until it asks for nothing. */
static void runs(const struct addrinfo *printer) {
    long long end = now() + SECONDS * 1000LL;
    kolatennis_asked asked;
    int link = -1;
    for (uint32_t why; kolatennis_till_asks(&till, &asked), asked.ask != KOLATENNIS_ASK_NOTHING;) {
        if (asked.ask == KOLATENNIS_ASK_APPEND) {
            kolatennis_till_appended(&till, is_kept());
        } else if (asked.ask == KOLATENNIS_ASK_CONNECT) {
            heard = came = 0;
            kolatennis_till_connected(&till, (link = connects(printer, end)) >= 0);
        } else if (asked.ask == KOLATENNIS_ASK_HANG_UP) {
            close(link);
            kolatennis_till_hung_up(&till);
        } else if (asked.ask == KOLATENNIS_ASK_TELL) {
            tells(asked.note, asked.number, asked.fault);
            if (asked.note == KOLATENNIS_NOTE_PAUSED) end = now() + PATIENCE * 1000LL;
            kolatennis_till_told(&till);
        } else if ((why = asked.ask == KOLATENNIS_ASK_PUT ? sends(link, end) : hears(link, asked.number, end))) {
            kolatennis_till_link_ended(&till, why);
        }
    }
}

int main(int count, char **arguments) {
    struct addrinfo wanted = {.ai_flags = AI_NUMERICHOST | AI_NUMERICSERV, .ai_socktype = SOCK_STREAM}, *printer;
    const char *copy = "*** MAY BE A COPY ***";
    uint32_t reason = 0;
    int status = 0;
    for (int stream = 0; stream < 3; stream++)
        if (fcntl(stream, F_GETFD) < 0) return FAULT; /* it is closed, and the link would get its number */
    if (count != 4) return ends(FAULT, "usage: till ADDRESS PORT FILE < RECEIPT", "");
    if (getaddrinfo(arguments[1], arguments[2], &wanted, &printer)) return ends(FAULT, "the address or the port isn't a number", "");
    size_t len = fread(receipt, 1, sizeof receipt, stdin);
    if (ferror(stdin)) return ends(FAULT, "the receipt can't be read", "");
    if (opens(arguments[3])) return FAULT;
    if (len) {
        status = kolatennis_till_queue(&till, NULL, receipt, len, &reason, NULL);
        if (status) return ends(status == KOLATENNIS_STATUS_REFUSED ? REFUSED : FAULT, "refused: ", kolatennis_error_name(reason ? reason : (uint32_t)status));
        runs(printer);
    }
    while (!outcome && !(status = kolatennis_till_deliver(&till, OPENINGS, (const uint8_t *)copy, strlen(copy), MOST_ANSWERS, &reason, NULL))) runs(printer);
    if (!outcome && reason != KOLATENNIS_TILL_NOTHING_WAITS) outcome = ends(NOT_SENT, "can't be delivered: ", kolatennis_error_name(reason ? reason : (uint32_t)status));
    kolatennis_till_free(&till);
    return is_unsaid && !outcome ? ends(UNSAID, "standard output is full or closed", "") : outcome;
}

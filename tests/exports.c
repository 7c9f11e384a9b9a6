/* Calls every export of the library from C, on a message of one piece that goes from a tablet to the office; then inits of a message
 * that has arrived in part, wakes within and outside of sending hours, wakes of a message of ten pieces,
 * frames of every length, cells by source, keyed and derived sums, and plans, which a fresh office keeps.
 * Exits with 0 and a last line 'N passed, 0 failed' if every answer is the expected one. */
#define _DEFAULT_SOURCE /* for memory that nobody may read */
#include <stdio.h>
#include <string.h>
#include <sys/mman.h>

#include "blake3_model.h"
#include "socketlemon.h"

enum { STORE = SOCKETLEMON_STORE_BYTES(4) };

static uint8_t office[STORE], unused_send[STORE], tablet[STORE], unused_recv[STORE];
static uint8_t run[SOCKETLEMON_WAKE_RUN], reply[SOCKETLEMON_PACKET_RUN], frame[SOCKETLEMON_FRAME + 1];
static size_t came; /* how many bytes of the frame came */
static uint8_t data[SOCKETLEMON_TAKE_DATA], report[SOCKETLEMON_REPORT];
static uint8_t here[16], there[16];
static int passed, failed;

static void expect(const char *what, int right) {
    if (right) {
        passed++;
    } else {
        failed++;
        printf("failed: %s\n", what);
    }
}

static int answers_pieces(socketlemon_answer a, uint64_t number, uint64_t run_len, uint64_t wake, uint64_t pieces) {
    if (a.number == number && a.run == run_len && a.wake == wake && a.pieces == pieces) return 1;
    printf("answer %llu %llu %llu %llu, expected %llu %llu %llu %llu\n", (unsigned long long)a.number, (unsigned long long)a.run,
           (unsigned long long)a.wake, (unsigned long long)a.pieces, (unsigned long long)number, (unsigned long long)run_len, (unsigned long long)wake,
           (unsigned long long)pieces);
    return 0;
}

/* The answer of a call that sends no piece. */
static int answers(socketlemon_answer a, uint64_t number, uint64_t run_len, uint64_t wake) { return answers_pieces(a, number, run_len, wake, 0); }

/* The run's first packet as it comes in. */
static void first_packet(const uint8_t *from_run) {
    came = from_run[0] * 256u + from_run[1];
    memcpy(frame, from_run + 34, came);
}

static uint8_t rules[1]; /* 0 accepts every topic, 1 none */

static socketlemon_answer to_office(void) {
    return socketlemon_packet(office, STORE, unused_send, STORE, frame, came, there, here, rules, 1, 1, reply, sizeof reply);
}

static socketlemon_answer to_tablet(void) {
    return socketlemon_packet(unused_recv, STORE, tablet, STORE, frame, came, here, there, rules, 1, 1, reply, sizeof reply);
}

enum { INIT = 21 + 5 };
static uint8_t init[INIT], office_was[STORE], send_was[STORE];

/* An init in the frame. */
static void init_of(const uint8_t *sent) {
    memcpy(frame, sent, INIT);
    came = INIT;
}

/* Whether the office answers this init with a number, and no byte of its stores changes. */
static int keeps_stores(const uint8_t *sent, uint64_t number) {
    memcpy(office_was, office, STORE);
    memcpy(send_was, unused_send, STORE);
    init_of(sent);
    return answers(to_office(), number, number ? 0 : 34 + 21, 0) && memcmp(office, office_was, STORE) == 0 && memcmp(unused_send, send_was, STORE) == 0;
}

/* The same where the answer is the init's first 21 bytes with the ack flag. */
static int changes_nothing(const uint8_t *sent) {
    if (!keeps_stores(sent, 0)) return 0;
    frame[8] |= 1;
    return memcmp(reply + 34, frame, 21) == 0 && memcmp(reply + 2, here, 16) == 0 && memcmp(reply + 18, there, 16) == 0;
}

/* A chunk of 250 zeros in the frame, at an index. */
static void chunk_at(uint8_t index) {
    memset(frame + 8, 0, sizeof frame - 8);
    frame[8] = 0x10, frame[19] = index, frame[35] = 250, came = 36 + 250;
}

/* A done in the frame, with a count and no sum. */
static void done_of(uint8_t count) {
    memset(frame + 8, 0, sizeof frame - 8);
    frame[8] = 0x40, frame[19] = count, came = 52;
}

/* Makes a message of 300 bytes arrive in part: a piece in each of two slots, of which its init gave it one. */
static int arrives_in_part(void) {
    init_of(init);
    int right = answers(to_office(), 0, 55, 0);
    for (uint8_t index = 0; index < 2; index++) {
        chunk_at(index);
        right &= answers(to_office(), 0, 70, 0);
    }
    return right;
}

/* Whether an init that differs in this byte starts the message again: its done then misses the one piece. */
static int restarts(uint8_t *byte, uint8_t flip) {
    int right = arrives_in_part();
    init_of(init);
    *byte ^= flip;
    right &= answers(to_office(), 0, 55, 0);
    *byte ^= flip;
    done_of(1);
    return right & answers(to_office(), SOCKETLEMON_GAP, 0, 0);
}

static void inits(void) {
    uint8_t other[INIT];
    expect("a message in part", arrives_in_part());
    expect("an equal init changes nothing", changes_nothing(init));
    memcpy(other, init, sizeof other);
    other[8] |= 0x7a, other[9] = 1, other[10] = 2, other[11] = 3;
    expect("nor does it with other bits and bytes in its header", changes_nothing(other));
    rules[0] = 1;
    expect("nor where its topic is closed", keeps_stores(init, SOCKETLEMON_CLOSED_TOPIC));
    rules[0] = 0;
    done_of(1);
    expect("the slots have grown", answers(to_office(), SOCKETLEMON_COUNT, 0, 0));
    done_of(2);
    expect("the pieces are there", answers(to_office(), SOCKETLEMON_TOTAL, 0, 0));
    expect("an init from elsewhere restarts", restarts(&there[15], 1));
    expect("an init to elsewhere restarts", restarts(&here[15], 1));
    expect("an init of another length restarts", restarts(&frame[19], 1));
    expect("an init of another topic restarts", restarts(&frame[21], 1));
    expect("an init of a shorter topic restarts", restarts(&frame[20], 1));
    expect("an init with the reply flag restarts", restarts(&frame[8], 4));
}

/* A calendar: the same window on every weekday, UTC, no closed date. */
typedef struct {
    uint8_t bytes[SOCKETLEMON_CALENDAR(1)];
    size_t len;
} calendar;

static calendar open_from(unsigned opening, unsigned closing) {
    calendar c = {{0}, SOCKETLEMON_CALENDAR(0)};
    for (size_t at = 0; at < 28; at += 4) {
        c.bytes[at] = (uint8_t)(opening >> 8), c.bytes[at + 1] = (uint8_t)opening;
        c.bytes[at + 2] = (uint8_t)(closing >> 8), c.bytes[at + 3] = (uint8_t)closing;
    }
    c.bytes[28] = 720 >> 8, c.bytes[29] = 720 & 255;
    return c;
}

/* The same with one closed date. */
static calendar closed_on(calendar c, unsigned year, uint8_t month, uint8_t day) {
    const uint8_t date[] = {(uint8_t)(year >> 8), (uint8_t)year, month, day};
    c.bytes[30] = 1;
    memcpy(c.bytes + 31, date, sizeof date);
    c.len = SOCKETLEMON_CALENDAR(1);
    return c;
}

/* The same by another local time, so many minutes after UTC. */
static calendar offset_by(calendar c, int minutes) {
    c.bytes[28] = (uint8_t)((minutes + 720) >> 8), c.bytes[29] = (uint8_t)(minutes + 720);
    return c;
}

static const uint8_t id[8] = {1, 2, 3, 4, 5, 6, 7, 8};
static uint8_t tablet_was[STORE], run_was[SOCKETLEMON_WAKE_RUN];

static socketlemon_answer wake(uint64_t kind, uint64_t clock, calendar c, uint64_t unix_ms) {
    return socketlemon_wake(tablet, STORE, kind, id, clock, c.bytes, c.len, unix_ms, run, sizeof run);
}

/* Whether a wake of an id is answered with a number, and no byte of the store or of the run changes. */
static int wakes_for_nothing(uint64_t number, uint64_t kind, const uint8_t *of, calendar c, uint64_t unix_ms, size_t run_len) {
    memcpy(tablet_was, tablet, STORE);
    memset(run, 0xee, sizeof run);
    memcpy(run_was, run, sizeof run);
    return answers(socketlemon_wake(tablet, STORE, kind, of, 1000, c.bytes, c.len, unix_ms, run, run_len), number, 0, 0) &&
           memcmp(tablet, tablet_was, STORE) == 0 && memcmp(run, run_was, sizeof run) == 0;
}

/* Whether a send wake at this time sends the init that is due, which changes nothing in the store; else it does nothing. */
static int sends(calendar c, uint64_t unix_ms) {
    memcpy(tablet_was, tablet, STORE);
    return answers(wake(1, 1000, c, unix_ms), 0, 60, 0) && memcmp(tablet, tablet_was, STORE) == 0;
}

static int sleeps(calendar c, uint64_t unix_ms) { return wakes_for_nothing(0, 1, id, c, unix_ms, sizeof run); }

static int is_bad(calendar c) { return wakes_for_nothing(SOCKETLEMON_BAD_CALENDAR, 1, id, c, 0, sizeof run); }

/* 17 November 2026, a Tuesday, 0:00 UTC; a day and a minute in milliseconds. */
static const uint64_t tuesday = 1794873600000, day = 86400000, minute = 60000;

/* Within hours and outside, on a message whose init is due. */
static void hours(void) {
    calendar always = open_from(0, 1440), shut = open_from(0, 0), office_hours = open_from(450, 1020), c;
    expect("open at its first millisecond", sends(office_hours, tuesday + 450 * minute));
    expect("shut just before", sleeps(office_hours, tuesday + 450 * minute - 1));
    expect("open up to its last millisecond", sends(office_hours, tuesday + 1020 * minute - 1));
    expect("shut at its closing minute", sleeps(office_hours, tuesday + 1020 * minute));
    expect("never open", sleeps(shut, tuesday) && sleeps(shut, 0) && sleeps(shut, UINT64_MAX));
    expect("always open", sends(always, tuesday) && sends(always, 0) && sends(always, UINT64_MAX));
    c = always;
    memset(c.bytes + 4, 0, 4);
    expect("shut on Tuesdays only", sleeps(c, tuesday) && sleeps(c, tuesday + day - 1) && sends(c, tuesday - 1) && sends(c, tuesday + day));
    c = offset_by(c, 60);
    expect("by local time", sleeps(c, tuesday - 60 * minute) && sends(c, tuesday - 60 * minute - 1) && sends(c, tuesday + day - 60 * minute));
    c = closed_on(always, 2026, 11, 17);
    expect("shut on a closed date only", sleeps(c, tuesday) && sleeps(c, tuesday + day - 1) && sends(c, tuesday - 1) && sends(c, tuesday + day));
    c = offset_by(closed_on(always, 1970, 1, 1), -720);
    expect("a local day before 1970", sends(c, 0) && sends(c, day / 2 - 1) && sleeps(c, day / 2));
}

/* Refusal 26, and at its place: behind 25 and 20, before 2 and 8. */
static void bad_calendars(void) {
    calendar always = open_from(0, 1440), bad = open_from(1, 1), c = always;
    c.len--;
    expect("a calendar cut short", is_bad(c));
    c.len += 2;
    expect("a calendar that is too long", is_bad(c));
    c.len = 0;
    expect("no calendar", is_bad(c));
    expect("windows the wrong way round, and too long",
           is_bad(open_from(2, 1)) && is_bad(bad) && is_bad(open_from(1440, 1440)) && is_bad(open_from(0, 1441)));
    expect("offsets", is_bad(offset_by(always, -721)) && is_bad(offset_by(always, 841)) && sends(offset_by(always, -720), 0) &&
                              sends(offset_by(always, 840), 0));
    expect("dates that do not exist", is_bad(closed_on(always, 2026, 4, 31)) && is_bad(closed_on(always, 2100, 2, 29)) &&
                                              is_bad(closed_on(always, 2026, 0, 1)) && is_bad(closed_on(always, 2026, 13, 1)) &&
                                              is_bad(closed_on(always, 2026, 1, 0)) && is_bad(closed_on(always, 1969, 12, 31)) &&
                                              is_bad(closed_on(always, 10000, 1, 1)));
    expect("dates that do", sends(closed_on(always, 2096, 2, 29), 0) && sends(closed_on(always, 2400, 2, 29), 0) && sends(closed_on(always, 9999, 12, 31), 0));

    static const uint8_t unknown[8] = {9};
    expect("26 before 2 and 8", wakes_for_nothing(SOCKETLEMON_BAD_CALENDAR, 1, unknown, bad, 0, 0) &&
                                        wakes_for_nothing(SOCKETLEMON_BAD_CALENDAR, 1, unknown, bad, 0, SOCKETLEMON_WAKE_RUN - 1));
    expect("then 2, also outside hours", wakes_for_nothing(SOCKETLEMON_SHORT_OUTPUT, 1, unknown, open_from(0, 0), 0, SOCKETLEMON_WAKE_RUN - 1));
    expect("then 8, also outside hours", wakes_for_nothing(SOCKETLEMON_UNKNOWN_ID, 1, unknown, open_from(0, 0), 0, SOCKETLEMON_WAKE_RUN));
    expect("20 before 26", wakes_for_nothing(SOCKETLEMON_NO_WORK, 3, id, bad, 0, sizeof run) &&
                                   wakes_for_nothing(SOCKETLEMON_NO_WORK, 0, id, bad, 0, sizeof run));
    tablet[0] ^= 1;
    expect("25 first", wakes_for_nothing(SOCKETLEMON_UNSOUND_STORE, 3, id, bad, 0, 0));
    tablet[0] ^= 1;
    expect("a deadline wake reads no calendar", wakes_for_nothing(SOCKETLEMON_UNKNOWN_ID, 2, unknown, bad, 0, SOCKETLEMON_WAKE_RUN) &&
                                                        answers(wake(2, 9000, bad, 0), 0, 46, 0) && answers(wake(2, 9000, open_from(0, 0), 0), 0, 0, 0));
}

/* A store for a message of ten pieces, and where its cells start. */
enum { PIECES = 10, ENTRY = 34 + 36 + 1300, LARGE = SOCKETLEMON_STORE_BYTES(PIECES), CELLS_AT = SOCKETLEMON_STORE_BYTES(0), CELL = 1380 };
static uint8_t large[LARGE], large_was[LARGE];

/* Hands the tablet of that store an acknowledgement: of its init (0x81), or of a piece (0x11). */
static int is_acknowledged(uint8_t flags, uint8_t index) {
    memset(frame, 0, sizeof frame);
    memcpy(frame, id, sizeof id);
    frame[8] = flags, frame[19] = index;
    return answers(socketlemon_packet(unused_recv, STORE, large, LARGE, frame, 36, here, there, rules, 1, 1, reply, sizeof reply), 0, 0, 1);
}

/* Whether a cell was stamped with this clock and is else as it was. */
static int is_stamped(const uint8_t *cell, const uint8_t *was, uint64_t clock) {
    uint64_t stamp = 0;
    for (int i = 4; i < 12; i++) stamp = stamp * 256 + cell[i];
    return stamp == clock && cell[12] == 1 && memcmp(cell, was, 4) == 0 && memcmp(cell + 13, was + 13, CELL - 13) == 0;
}

/* Whether a send wake sends the pieces whose indexes are these digits, in this order, and changes nothing but their stamps. */
static int sends_pieces(uint64_t clock, const char *indexes) {
    calendar always = open_from(0, 1440);
    size_t count = strlen(indexes);
    memcpy(large_was, large, LARGE);
    int right = answers_pieces(socketlemon_wake(large, LARGE, 1, id, clock, always.bytes, always.len, 0, run, sizeof run), 0, count * ENTRY, 0, count);
    for (size_t i = 0; i < count; i++) right = right && run[i * ENTRY + 34 + 8] == 0x10 && run[i * ENTRY + 34 + 19] == indexes[i] - '0';
    for (size_t at = CELLS_AT; at < LARGE; at += CELL)
        right = right && (strchr(indexes, '0' + large[at + 1]) ? is_stamped(large + at, large_was + at, clock) : memcmp(large + at, large_was + at, CELL) == 0);
    return right && memcmp(large, large_was, CELLS_AT) == 0;
}

/* A message of ten pieces: at most eight leave with a wake, those never sent by index, then those that are due by stamp and index. */
static void eight(void) {
    static uint8_t message[PIECES * 1300];
    for (size_t i = 0; i < sizeof message; i++) message[i] = (uint8_t)(i / 7);
    expect("setup of a larger store", answers(socketlemon_setup(large, LARGE, SOCKETLEMON_SEND), 0, 0, 0));
    expect("push of ten pieces", answers(socketlemon_push(large, LARGE, id, 0, there, here, (const uint8_t *)"ducts", 5, message, sizeof message, 0, 0, run,
                                                          sizeof run), 0, 60, 0));
    expect("its init is acknowledged", is_acknowledged(0x81, 0));
    expect("the first eight", sends_pieces(1000, "01234567"));
    expect("those never sent before those that are due", sends_pieces(1100, "89012345"));
    expect("not due yet but for two", sends_pieces(1150, "67"));
    expect("nothing twice at one clock", sends_pieces(1150, ""));
    expect("equal stamps by index", sends_pieces(1200, "01234589"));
    expect("the oldest stamp first", sends_pieces(1600, "67012345") && sends_pieces(1600, "89"));
    expect("nothing by a clock that went back", sends_pieces(1599, "") && sends_pieces(0, ""));
    expect("acknowledgements of two", is_acknowledged(0x11, 0) && is_acknowledged(0x11, 8));
    expect("all others at the last clock", sends_pieces(UINT64_MAX, "12345679") && sends_pieces(UINT64_MAX, ""));
    calendar always = open_from(0, 1440);
    memcpy(large_was, large, LARGE);
    expect("one byte too few for eight",
           answers(socketlemon_wake(large, LARGE, 1, id, 1000, always.bytes, always.len, 0, run, 10959), SOCKETLEMON_SHORT_OUTPUT, 0, 0) &&
                   answers(socketlemon_wake(large, LARGE, 1, id, 1000, always.bytes, always.len, 0, run, 10960), 0, 0, 0) &&
                   memcmp(large, large_was, LARGE) == 0);
}

/* A frame of these flags and the numbers at bytes 12 and 28, with other bytes behind those that it needs. */
static void frame_of(uint8_t flags, uint8_t number, uint64_t size, size_t needed) {
    memset(frame, 0xee, sizeof frame);
    memset(frame, 0, needed);
    memcpy(frame, id, sizeof id);
    frame[8] = flags, frame[19] = number;
    for (int i = 0; needed >= 36 && i < 8; i++) frame[28 + i] = (uint8_t)(size >> 8 * (7 - i));
}

static uint8_t recv_was[STORE];

/* What the stores answer to the first bytes of the frame. They are put back; `changed` says whether they were others. */
static socketlemon_answer gets(uint8_t *recv, uint8_t *send, size_t len, size_t run_len, int *changed) {
    memcpy(recv_was, recv, STORE);
    memcpy(send_was, send, STORE);
    socketlemon_answer a = socketlemon_packet(recv, STORE, send, STORE, frame, len, there, here, rules, 1, 1, reply, run_len);
    *changed = memcmp(recv, recv_was, STORE) != 0 || memcmp(send, send_was, STORE) != 0;
    memcpy(recv, recv_was, STORE);
    memcpy(send, send_was, STORE);
    return a;
}

/* Whether so many bytes of the frame are refused with a number, and no byte of the stores changes. */
static int is_refused(uint8_t *recv, uint8_t *send, size_t len, uint64_t number) {
    int changed, right = answers(gets(recv, send, len, sizeof reply, &changed), number, 0, 0);
    return right && !changed;
}

/* Whether the frame is taken with so many bytes or more, up to 1,400, and with no others. */
static int needs(uint8_t *recv, uint8_t *send, size_t needed) {
    int right = is_refused(recv, send, 0, SOCKETLEMON_BAD_FRAME) && is_refused(recv, send, SOCKETLEMON_FRAME + 1, SOCKETLEMON_BAD_FRAME);
    for (size_t len = 1; right && len <= SOCKETLEMON_FRAME; len++) {
        int changed;
        if (len < needed) right = is_refused(recv, send, len, SOCKETLEMON_SHORT_FRAME);
        else right = gets(recv, send, len, sizeof reply, &changed).number == 0 && changed;
    }
    return right;
}

/* Whether a chunk with this size field is a short frame, whatever came. */
static int is_never_enough(uint64_t size) {
    int right = 1;
    frame_of(0x10, 0, size, 36);
    for (size_t len = 1; right && len <= SOCKETLEMON_FRAME; len++) right = is_refused(office, unused_send, len, SOCKETLEMON_SHORT_FRAME);
    return right;
}

/* The sum of no bytes. */
static const uint8_t empty_sum[32] = {0xaf, 0x13, 0x49, 0xb9, 0xf5, 0xf9, 0xa1, 0xa6, 0xa0, 0x40, 0x4d, 0xea, 0x36, 0xdc, 0xc9, 0x49,
                                      0x9b, 0xcb, 0x25, 0xc9, 0xad, 0xc1, 0x12, 0xb7, 0xcc, 0x9a, 0x93, 0xca, 0xe4, 0x1f, 0x32, 0x62};

/* Frames of every length: of each kind on stores that wait for it, with sizes that no frame has, and among the other refusals. */
static void frames(void) {
    static const uint8_t message[300];
    int changed;
    socketlemon_setup(office, STORE, SOCKETLEMON_RECEIVE), socketlemon_setup(tablet, STORE, SOCKETLEMON_SEND);
    frame_of(0x80, 0, 0, INIT);
    frame[18] = 5, frame[19] = 0x78, frame[20] = 5;
    expect("an init needs 21 and its topic", needs(office, unused_send, INIT));
    came = INIT;
    expect("an init of 1,400 bytes", answers(to_office(), 0, 55, 0));
    frame_of(0x10, 1, 250, 286);
    expect("a chunk needs 36 and its piece", needs(office, unused_send, 286));
    frame_of(0x50, 0, 1364, 1400);
    expect("the largest needs 1,400", needs(office, unused_send, 1400));
    expect("a larger size is never enough", is_never_enough(1365) && is_never_enough(UINT64_MAX - 36) && is_never_enough(UINT64_MAX - 35) &&
                                                    is_never_enough(UINT64_MAX - 34) && is_never_enough(UINT64_MAX));
    frame_of(0x20, 0, 0, 12);
    expect("an aborted needs 12", needs(office, unused_send, 12));
    frame_of(0x80, 0, 0, 21);
    came = 21;
    expect("an init of no bytes", answers(to_office(), 0, 55, 0));
    frame_of(0x40, 0, 0, 52);
    memcpy(frame + 20, empty_sum, sizeof empty_sum);
    expect("a done needs 52", needs(office, unused_send, 52));

    expect("push for frames", answers(socketlemon_push(tablet, STORE, id, 0, there, here, message, 5, message, sizeof message, 0, 0, run, sizeof run), 0, 60, 0));
    frame_of(0x91, 0, 0, 12);
    expect("an acknowledgement of an init needs 12", needs(unused_recv, tablet, 12));
    came = 12;
    expect("the init is acknowledged", answers(to_tablet(), 0, 0, 1));
    frame_of(0x51, 0, UINT64_MAX, 36);
    expect("of a chunk 36, whatever its size", needs(unused_recv, tablet, 36));
    frame_of(0x41, 0, 0, 12);
    expect("of a done 12", needs(unused_recv, tablet, 12));
    came = 12;
    expect("the done is acknowledged", answers(to_tablet(), 0, 0, 0));
    frame_of(0x08, 0, 0, 12);
    expect("a read needs 12", needs(unused_recv, tablet, 12));

    frame_of(0x06, 0, 0, 12);
    expect("27 before 20", is_refused(office, unused_send, 11, SOCKETLEMON_SHORT_FRAME) && is_refused(office, unused_send, 12, SOCKETLEMON_NO_WORK));
    expect("20 before 2", answers(gets(office, unused_send, 12, 0, &changed), SOCKETLEMON_NO_WORK, 0, 0));
    frame_of(0x40, 0, 0, 52);
    expect("27 before 2", answers(gets(office, unused_send, 51, 0, &changed), SOCKETLEMON_SHORT_FRAME, 0, 0) &&
                                  answers(gets(office, unused_send, 52, 0, &changed), SOCKETLEMON_SHORT_OUTPUT, 0, 0));
    expect("1 before 2", answers(gets(office, unused_send, 0, 0, &changed), SOCKETLEMON_BAD_FRAME, 0, 0));
    expect("25 before both", is_refused(tablet, unused_send, 0, SOCKETLEMON_UNSOUND_STORE) && is_refused(tablet, unused_send, 11, SOCKETLEMON_UNSOUND_STORE) &&
                                     is_refused(office, unused_recv, 0, SOCKETLEMON_UNSOUND_STORE) &&
                                     is_refused(office, unused_recv, 11, SOCKETLEMON_UNSOUND_STORE));
}

/* An office with the most cells; two sources, by the byte that their addresses have sixteen times; the flags of packets. */
enum { WIDE = SOCKETLEMON_STORE_BYTES(45), RECORD = 328, FIRST_SOURCE = 16 + 16, LONGEST = 32500, FIRST = 0x11, OTHER = 0x33 };
enum { INIT_FLAG = 0x80, CHUNK_FLAG = 0x10, DONE_FLAG = 0x40, ABORTED_FLAG = 0x20 };
static uint8_t wide[WIDE], wide_was[WIDE];

static void put_number(uint8_t *at, uint64_t n) {
    for (int i = 8; i > 0; n >>= 8) at[--i] = (uint8_t)n;
}

/* Whether the wide office answers a number to a packet of an id that ends in `short_id`; if it refuses it, nothing has changed. */
static int gives(uint64_t number, uint8_t sender, uint8_t short_id, uint8_t flags, uint64_t first, uint64_t offset, uint64_t size) {
    uint8_t from[16];
    memset(from, sender, sizeof from);
    memset(frame, 0, sizeof frame);
    frame[7] = short_id, frame[8] = flags;
    put_number(frame + 12, first), put_number(frame + 20, offset), put_number(frame + 28, size);
    if (flags == DONE_FLAG) memcpy(frame + 20, empty_sum, sizeof empty_sum);
    memcpy(wide_was, wide, WIDE);
    socketlemon_answer a = socketlemon_packet(wide, WIDE, unused_send, STORE, frame, 52 + size, from, here, rules, 1, 1, reply, sizeof reply);
    return a.number == number && (number == 0 || (a.run == 0 && memcmp(wide, wide_was, WIDE) == 0));
}

static int announces(uint8_t source, uint8_t short_id, uint64_t length) { return gives(0, source, short_id, INIT_FLAG, length, 0, 0); }

/* A piece of 250 bytes, and one of none. The first source sends them, whosever they are. */
static int piece(uint64_t number, uint8_t short_id, uint64_t index) { return gives(number, FIRST, short_id, CHUNK_FLAG, index, 0, 250); }

static int empty_piece(uint64_t number, uint8_t short_id, uint64_t index) { return gives(number, FIRST, short_id, CHUNK_FLAG, index, LONGEST, 0); }

/* Whether pieces are kept at so many indexes from 0 on. */
static int keeps(uint8_t short_id, uint64_t count) {
    int right = 1;
    for (uint64_t index = 0; index < count; index++) right &= piece(0, short_id, index);
    return right;
}

/* The first source has announced the message 1, of which so many pieces have come, and 2. */
static int holds_pieces(uint64_t count) {
    return answers(socketlemon_setup(wide, WIDE, SOCKETLEMON_RECEIVE), 0, 0, 0) && announces(FIRST, 1, LONGEST) && keeps(1, count) &&
           announces(FIRST, 2, LONGEST);
}

/* A message of no bytes with one piece of none is whole. */
static int becomes_whole(uint8_t short_id) {
    return announces(FIRST, short_id, 0) && gives(0, FIRST, short_id, CHUNK_FLAG, 0, 0, 0) && gives(0, FIRST, short_id, DONE_FLAG, 1, 0, 0);
}

static int takes(uint64_t number) { return socketlemon_take(wide, WIDE, data, sizeof data, run, sizeof run).number == number; }

/* A source holds at most 30 cells. */
static void sources(void) {
    const uint64_t full = SOCKETLEMON_SOURCE_CELLS;
    expect("29 cells of a source", holds_pieces(full - 1));
    expect("the thirtieth, without bytes", empty_piece(0, 1, 29));
    expect("no other", piece(SOCKETLEMON_SOURCE_FULL, 1, 30) && empty_piece(SOCKETLEMON_SOURCE_FULL, 1, 129) && piece(SOCKETLEMON_SOURCE_FULL, 2, 0));
    expect("a held index needs none", piece(0, 1, 29) && piece(SOCKETLEMON_SOURCE_FULL, 1, 30));
    expect("whoever sends", gives(SOCKETLEMON_SOURCE_FULL, OTHER, 1, CHUNK_FLAG, 30, 0, 250));
    expect("8 to 11 before 28", piece(SOCKETLEMON_UNKNOWN_ID, 9, 30) && gives(SOCKETLEMON_PAST_END, FIRST, 1, CHUNK_FLAG, 30, LONGEST, 250) &&
                                        piece(SOCKETLEMON_HIGH_INDEX, 1, 130) && gives(SOCKETLEMON_SHORT_PIECE, FIRST, 1, CHUNK_FLAG, 30, 0, 249));
    expect("fifteen for another source", announces(OTHER, 3, LONGEST) && keeps(3, 15) && piece(SOCKETLEMON_NO_CELL, 3, 15));
    expect("28 before 12", piece(SOCKETLEMON_SOURCE_FULL, 1, 30) && piece(0, 1, 29) && piece(0, 3, 14));

    expect("whole messages", holds_pieces(full - 2) && becomes_whole(3) && becomes_whole(4));
    expect("their cells count", piece(SOCKETLEMON_SOURCE_FULL, 1, 28) && takes(0) && piece(0, 1, 28) && piece(SOCKETLEMON_SOURCE_FULL, 1, 29));
    expect("cells of an aborted message", holds_pieces(full) && piece(SOCKETLEMON_SOURCE_FULL, 2, 0) && gives(0, FIRST, 1, ABORTED_FLAG, 0, 0, 0) &&
                                                  keeps(2, full) && piece(SOCKETLEMON_SOURCE_FULL, 2, 30));
    expect("cells of one that starts again", holds_pieces(full) && announces(FIRST, 1, LONGEST) && piece(SOCKETLEMON_SOURCE_FULL, 2, 0) &&
                                                     announces(FIRST, 1, LONGEST - 1) && keeps(2, full) && piece(SOCKETLEMON_SOURCE_FULL, 2, 30));

    expect("31 cells of two sources", holds_pieces(full) && announces(OTHER, 2, LONGEST) && piece(0, 2, 0) && takes(SOCKETLEMON_NONE_WHOLE));
    memcpy(wide + FIRST_SOURCE + RECORD, wide + FIRST_SOURCE, 16);
    expect("31 of one are unsound", piece(SOCKETLEMON_UNSOUND_STORE, 1, 0) && takes(SOCKETLEMON_UNSOUND_STORE));
}

/* Key and context of the published vectors, and two of their sums: of 1,025 bytes that count up to 250. */
static const uint8_t sum_key[] = "whats the Elvish word for friend";
static const uint8_t context[] = "BLAKE3 2019-12-27 16:29:52 test vectors context";
static const uint8_t keyed_sum[32] = {0x35, 0x7d, 0xc5, 0x5d, 0xe0, 0xc7, 0xe3, 0x82, 0xc9, 0x00, 0xfd,
                                      0x6e, 0x32, 0x0a, 0xcc, 0x04, 0x14, 0x6b, 0xe0, 0x1d, 0xb6, 0xa8,
                                      0xce, 0x72, 0x10, 0xb7, 0x18, 0x9b, 0xd6, 0x64, 0xea, 0x69};
static const uint8_t derived_sum[32] = {0xef, 0xfa, 0xa2, 0x45, 0xf0, 0x65, 0xfb, 0xf8, 0x2a, 0xc1, 0x86,
                                        0x83, 0x9a, 0x24, 0x97, 0x07, 0xc3, 0xbd, 0xdf, 0x6d, 0x3f, 0xdd,
                                        0xa2, 0x2d, 0x1b, 0x95, 0xa3, 0xc9, 0x70, 0x37, 0x9b, 0xcb};

enum { INPUT = 1025, CONTEXT = sizeof context - 1, MOST_SUM = SOCKETLEMON_LONGEST_SUM };
static uint8_t input[INPUT], sum[MOST_SUM + 1], other_sum[MOST_SUM];

/* The two ways to fill an output of so many bytes; all bytes were 0xee before. */
static socketlemon_answer keyed(size_t key_len, size_t out_len) {
    memset(sum, 0xee, sizeof sum);
    return socketlemon_keyed_hash(sum_key, key_len, input, sizeof input, sum, out_len);
}

static socketlemon_answer derived(size_t context_len, size_t out_len) {
    memset(sum, 0xee, sizeof sum);
    return socketlemon_derive_key(context, context_len, input, sizeof input, sum, out_len);
}

/* Whether nothing was written from here on. */
static int is_untouched(size_t from) {
    while (from < sizeof sum && sum[from] == 0xee) from++;
    return from == sizeof sum;
}

/* Whether outputs of other lengths are the beginning of the longest, and leave what is behind them. */
static int begin_alike(socketlemon_answer (*fill)(size_t, size_t), size_t len) {
    static const size_t lengths[] = {0, 1, 31, 32, 33, 63, 64, 65, 128, 1000, MOST_SUM - 1, MOST_SUM};
    int right = answers(fill(len, MOST_SUM), 0, 0, 0);
    memcpy(other_sum, sum, MOST_SUM);
    for (size_t i = 0; i < sizeof lengths / sizeof *lengths; i++)
        right = right && answers(fill(len, lengths[i]), 0, 0, 0) && memcmp(sum, other_sum, lengths[i]) == 0 &&
                is_untouched(lengths[i]);
    return right;
}

static int is_refused_29(socketlemon_answer a) { return answers(a, SOCKETLEMON_BAD_LENGTHS, 0, 0); }

/* The same, and nothing was written. */
static int is_bad_sum(socketlemon_answer a) { return is_refused_29(a) && is_untouched(0); }

/* Whether refusal 29 comes before any byte is read or written: those here may be neither, and a library that
 * tries it ends the program. */
static int is_refused_unread(void) {
    const size_t len = MOST_SUM + 1;
    uint8_t *shut = mmap(NULL, 3 * len, PROT_NONE, MAP_PRIVATE | MAP_ANONYMOUS, -1, 0);
    if (shut == MAP_FAILED) return 0;
    int right = is_refused_29(socketlemon_keyed_hash(shut, 31, shut + len, len, shut + 2 * len, 32)) &&
                is_refused_29(socketlemon_keyed_hash(shut, 32, shut + len, len, shut + 2 * len, len)) &&
                is_refused_29(socketlemon_derive_key(shut, len, shut + len, len, shut + 2 * len, len));
    return munmap(shut, 3 * len) == 0 && right;
}

/* Keyed and derived sums. */
static void sums(void) {
    for (size_t i = 0; i < sizeof input; i++) input[i] = (uint8_t)(i % 251);
    expect("the published keyed sum",
           answers(keyed(32, 32), 0, 0, 0) && memcmp(sum, keyed_sum, 32) == 0 && is_untouched(32));
    expect("the published derived sum",
           answers(derived(CONTEXT, 32), 0, 0, 0) && memcmp(sum, derived_sum, 32) == 0 && is_untouched(32));
    expect("keyed outputs begin alike", begin_alike(keyed, SOCKETLEMON_SUM_KEY));
    expect("derived outputs begin alike", begin_alike(derived, CONTEXT));
    expect("keys of other lengths",
           is_bad_sum(keyed(31, 32)) && is_bad_sum(keyed(33, 32)) && is_bad_sum(keyed(0, 32)));
    expect("also for an output of no bytes", is_bad_sum(keyed(31, 0)) && is_bad_sum(keyed(33, 0)));
    expect("outputs that are too long",
           is_bad_sum(keyed(32, MOST_SUM + 1)) && is_bad_sum(derived(CONTEXT, MOST_SUM + 1)));
    expect("both at once", is_bad_sum(keyed(31, MOST_SUM + 1)));
    expect("a shorter context gives another sum",
           answers(derived(CONTEXT - 1, 32), 0, 0, 0) && !is_untouched(0) &&
                   memcmp(sum, derived_sum, 32) != 0);
    expect("so does none",
           answers(derived(0, 32), 0, 0, 0) && !is_untouched(0) && memcmp(sum, derived_sum, 32) != 0);
    expect("bad lengths before anything is read", is_refused_unread());
}

/* A plan's buffer with room for a size more, all 0xee before; the survey whose beginnings plans send. */
enum { LARGEST_PIECE = 1364 };
static uint8_t planned[SOCKETLEMON_PLAN + 2], survey[LONGEST];

static socketlemon_answer plan(uint64_t length, uint64_t pieces, size_t out_len) {
    memset(planned, 0xee, sizeof planned);
    return socketlemon_plan(length, pieces, planned, out_len);
}

/* Whether nothing was written from here on. */
static int is_unplanned(size_t from) {
    while (from < sizeof planned && planned[from] == 0xee) from++;
    return from == sizeof planned;
}

static uint64_t planned_size(uint64_t index) { return planned[2 * index] * 256u + planned[2 * index + 1]; }

/* Whether the plan is so many of the largest pieces, then the rest, then zeros, with nothing behind them. */
static int is_plan(socketlemon_answer a, uint64_t pieces, uint64_t largest, uint64_t rest) {
    int right = answers(a, 0, 2 * pieces, 0) && is_unplanned(2 * pieces);
    for (uint64_t i = 0; right && i < pieces; i++)
        right = planned_size(i) == (i < largest ? LARGEST_PIECE : i == largest ? rest : 0);
    return right;
}

/* Whether the wide office does a packet of these flags, first number and tail, and replies so many bytes. */
static int does(uint8_t flags, uint64_t first, const uint8_t *tail, size_t len, uint64_t reply_len) {
    memset(frame, 0, sizeof frame);
    memcpy(frame, id, sizeof id);
    frame[8] = flags;
    put_number(frame + 12, first);
    memcpy(frame + 20, tail, len);
    socketlemon_answer a = socketlemon_packet(wide, WIDE, unused_send, STORE, frame, 20 + len, there, here,
                                              rules, 1, 1, reply, sizeof reply);
    return answers(a, 0, reply_len, 0);
}

/* The same of a piece of the survey. */
static int keeps_piece(uint64_t index, uint64_t offset, uint64_t size) {
    static uint8_t tail[16 + LARGEST_PIECE];
    put_number(tail, offset), put_number(tail + 8, size);
    memcpy(tail + 16, survey + offset, size);
    return does(CHUNK_FLAG, index, tail, 16 + size, 34 + 36);
}

/* Whether a fresh office of 45 cells keeps and finishes what was planned last, and then hands it out. */
static int is_kept(uint64_t length, uint64_t pieces) {
    static const uint8_t no_topic[1];
    uint8_t whole_sum[32];
    uint64_t offset = 0;
    int right = answers(socketlemon_setup(wide, WIDE, SOCKETLEMON_RECEIVE), 0, 0, 0) &&
                does(INIT_FLAG, length, no_topic, sizeof no_topic, 34 + 21);
    for (uint64_t i = 0; right && i < pieces; offset += planned_size(i++))
        right = offset + planned_size(i) <= length && keeps_piece(i, offset, planned_size(i));
    model_plain_sum(survey, length, whole_sum);
    right = right && offset == length && does(DONE_FLAG, pieces, whole_sum, sizeof whole_sum, 34 + 52);
    memset(data, 0xee, sizeof data);
    return right && takes(0) && memcmp(data + RECORD, survey, length) == 0;
}

/* Whether there is this plan, and it is kept. */
static int plans(uint64_t length, uint64_t pieces, uint64_t largest, uint64_t rest) {
    return is_plan(plan(length, pieces, SOCKETLEMON_PLAN), pieces, largest, rest) && is_kept(length, pieces);
}

/* Whether a plan is refused with a number, and nothing was written. */
static int is_no_plan(uint64_t number, uint64_t length, uint64_t pieces, size_t out_len) {
    return answers(plan(length, pieces, out_len), number, 0, 0) && is_unplanned(0);
}

static int has_none(uint64_t length, uint64_t pieces) {
    return is_no_plan(SOCKETLEMON_NO_PLAN, length, pieces, SOCKETLEMON_PLAN);
}

/* Plans, by lengths and numbers of pieces; each of them is kept. Then their buffer. */
static void numbers_of_pieces(void) {
    const size_t room = SOCKETLEMON_PLAN;
    for (size_t i = 0; i < sizeof survey; i++) survey[i] = (uint8_t)(i * 31 + i / 251);
    expect("no bytes in no piece, and in one", plans(0, 0, 0, 0) && plans(0, 1, 0, 0) && has_none(0, 2));
    expect("one byte in one piece", has_none(1, 0) && plans(1, 1, 0, 1) && has_none(1, 2));
    expect("two pieces from 251 bytes on",
           has_none(250, 2) && plans(251, 2, 0, 251) && plans(500, 2, 0, 500) && has_none(500, 3));
    expect("one piece up to 1,300",
           plans(1300, 1, 0, 1300) && has_none(1301, 1) && plans(1301, 2, 0, 1301));
    expect("1,364 in a piece", has_none(1364, 1) && plans(1364, 2, 0, 1364) && plans(1365, 2, 1, 1));
    expect("30 pieces from 7,251 bytes on",
           plans(7250, 29, 5, 430) && has_none(7250, 30) && plans(7251, 30, 5, 431));
    expect("the longest message", has_none(LONGEST, 24) && plans(LONGEST, 25, 23, 1128) &&
                                          plans(LONGEST, 30, 23, 1128) && has_none(LONGEST, 31));
    expect("none for a byte more", has_none(LONGEST + 1, 0) && has_none(LONGEST + 1, 25) &&
                                           has_none(LONGEST + 1, 26) && has_none(LONGEST + 1, 30));
    expect("none for numbers near 2^64", has_none(UINT64_MAX, 1) && has_none(UINT64_MAX, UINT64_MAX) &&
                                                 has_none(LONGEST, UINT64_MAX) && has_none(0, UINT64_MAX));
    expect("59 bytes are too few, also for none",
           is_no_plan(SOCKETLEMON_SHORT_OUTPUT, LONGEST, 30, room - 1) &&
                   is_no_plan(SOCKETLEMON_SHORT_OUTPUT, 0, 0, room - 1) &&
                   is_no_plan(SOCKETLEMON_SHORT_OUTPUT, 0, 1, 0));
    expect("60 are enough, and 61", is_plan(plan(0, 0, room), 0, 0, 0) &&
                                            is_plan(plan(LONGEST, 30, room), 30, 23, 1128) &&
                                            is_plan(plan(LONGEST, 30, room + 1), 30, 23, 1128));
    expect("room for 31 sizes makes no plan of 31", is_no_plan(SOCKETLEMON_NO_PLAN, LONGEST, 31, room + 2));
    expect("2 before 31", is_no_plan(SOCKETLEMON_SHORT_OUTPUT, 250, 2, room - 1) &&
                                  is_no_plan(SOCKETLEMON_SHORT_OUTPUT, LONGEST + 1, 31, room - 1) &&
                                  is_no_plan(SOCKETLEMON_NO_PLAN, 250, 2, room + 1));
}

int main(void) {
    static const uint8_t message[300] = {42};
    uint8_t key[32] = {7};
    setvbuf(stdout, NULL, _IOLBF, 0); /* what has failed is shown even if a call then ends the program */
    expect("address of the office", answers(socketlemon_address(key, sizeof key, here, sizeof here), 0, 0, 0));
    expect("an address starts with 4 or 5", (here[0] & 0xfe) == 4);
    key[0] = 9;
    expect("address of the tablet", answers(socketlemon_address(key, sizeof key, there, sizeof there), 0, 0, 0));
    expect("a short key", answers(socketlemon_address(key, 31, there, sizeof there), SOCKETLEMON_BAD_FRAME, 0, 0));
    expect("setup", answers(socketlemon_setup(office, STORE, SOCKETLEMON_RECEIVE), 0, 0, 0));
    expect("setup of the others", socketlemon_setup(unused_send, STORE, 2).number + socketlemon_setup(tablet, STORE, 2).number +
                                          socketlemon_setup(unused_recv, STORE, 1).number == 0);
    expect("setup of a length that is none", answers(socketlemon_setup(office, STORE - 1, 1), SOCKETLEMON_UNSOUND_STORE, 0, 0));

    expect("push", answers(socketlemon_push(tablet, STORE, id, 0, there, here, (const uint8_t *)"ducts", 5, message, sizeof message, 5000, 60000, run,
                                            sizeof run), 0, 60, 0));
    first_packet(run);
    expect("the init's bytes", came == sizeof init);
    memcpy(init, frame, sizeof init);
    expect("init", answers(to_office(), 0, 55, 0));
    first_packet(reply);
    expect("ack of the init", answers(to_tablet(), 0, 0, 1));
    expect("send wake", answers_pieces(wake(1, 1000, open_from(0, 1440), 0), 0, 34 + 36 + 300, 0, 1));
    first_packet(run);
    expect("chunk", answers(to_office(), 0, 70, 0));
    expect("report", answers(socketlemon_report(tablet, STORE, id, report, sizeof report), 0, 0, 0));
    expect("report: in progress, one piece sent", report[16] == 1 && report[17] == 0 && report[18] == 1 && report[19] == 0);
    first_packet(reply);
    expect("ack of the chunk", answers(to_tablet(), 0, 0, 1));
    expect("the init again, behind the chunk", changes_nothing(init));
    expect("wake with all acknowledged", answers(wake(1, 1100, open_from(0, 1440), 0), 0, 86, 0));
    first_packet(run);
    expect("done", answers(to_office(), 0, 86, 0));
    first_packet(reply);
    expect("ack of the done", answers(to_tablet(), 0, 0, 0));
    expect("take", answers(socketlemon_take(office, STORE, data, sizeof data, run, sizeof run), 0, 46, 0));
    expect("the message is what was pushed", memcmp(data + 328, message, sizeof message) == 0 && memcmp(data + 8, id, sizeof id) == 0);
    first_packet(run);
    expect("read", answers(to_tablet(), 0, 0, 0));
    expect("nothing left to take",
           answers(socketlemon_take(office, STORE, data, sizeof data, run, sizeof run), SOCKETLEMON_NONE_WHOLE, 0, 0));
    expect("first deadline", answers(wake(2, 9000, open_from(0, 1440), 0), 0, 0, 0));
    expect("second deadline", answers(wake(2, 9000, open_from(0, 1440), 0), 0, 0, 0));
    expect("the id is gone", answers(socketlemon_report(tablet, STORE, id, report, sizeof report), SOCKETLEMON_UNKNOWN_ID, 0, 0));
    inits();
    expect("push again", answers(socketlemon_push(tablet, STORE, id, 0, there, here, (const uint8_t *)"ducts", 5, message, sizeof message, 5000, 60000,
                                                  run, sizeof run), 0, 60, 0));
    hours();
    bad_calendars();
    eight();
    frames();
    sources();
    sums();
    numbers_of_pieces();
    printf("%d passed, %d failed\n", passed, failed);
    return failed != 0;
}

/* Feeds random and mutated bytes, lengths, stores and numbers to every export, and checks of each answer: the number is one
 * of docs/PROTOCOL.md's, the run fits its buffer, bytes past what was written stay, and a refusal changed nothing. Of an init that
 * was accepted: an equal one has changed nothing either, and any other has left a fresh record. Of a frame: whether enough of it
 * came, and that no more was read. Of a chunk: its number, by the cells that its source holds and by those that are free. Of a wake:
 * what its calendar says, and which pieces it sends, counts and stamps, by the models here, which share nothing with the library.
 * Of a keyed or derived sum: which lengths are refused, and every byte, by a model of BLAKE3.
 * Of a plan: its sizes, or that there is none, by a model of what a receiver keeps.
 * Use: fuzz [SEED [ROUNDS [all]]]; under valgrind it also shows that nothing outside the buffers is touched, for each lies in an
 * allocation of its own. Exits with 0 if every answer was right and, with `all`, every refusal of a call was met, both kinds of inits of a
 * message with pieces, frames of each kind at and around what they need, pieces of sources at their limit and below it, every way to
 * spoil a calendar, wakes that would have sent something, within hours and outside, wakes with more to send
 * than they may, sums of each way with lengths at and around their bounds, and plans of as few and as many pieces
 * as there can be, one piece fewer and one more. */
#include <stdio.h>
#include <stdlib.h>
#include <string.h>

#include "blake3_model.h"
#include "socketlemon.h"

enum { RECORD = 328, RECORDS_AT = 16, CELLS_AT = RECORDS_AT + 8 * RECORD, CELL = 1380 };

typedef struct {
    uint8_t *at, *was;
    size_t len;
} buffer;

static uint64_t state;
static unsigned long passed, failed;
static int met[SOCKETLEMON_REFUSALS + 1];
static unsigned long equal_inits, other_inits; /* of messages with pieces */

static uint64_t next(void) {
    state ^= state << 13;
    state ^= state >> 7;
    state ^= state << 17;
    return state;
}

static size_t below(size_t n) { return (size_t)(next() % n); }

/* A buffer of exactly that length, so that a tool sees every step outside. */
static buffer make(size_t len) {
    buffer b = {malloc(len), malloc(len), len};
    if (len && (!b.at || !b.was)) abort();
    for (size_t i = 0; i < len; i++) b.at[i] = (uint8_t)next();
    return b;
}

static void drop(buffer b) {
    free(b.at);
    free(b.was);
}

static void keep(buffer b) {
    if (b.len) memcpy(b.was, b.at, b.len);
}

static int same_from(buffer b, size_t from) { return from >= b.len || memcmp(b.at + from, b.was + from, b.len - from) == 0; }

static void expect(const char *what, int right) {
    if (right) {
        passed++;
    } else {
        failed++;
        printf("failed: %s (state %llx)\n", what, (unsigned long long)state);
    }
}

/* The refusals that calls answer: all but NO_CUTS, which is the program cuts's. */
enum { REFUSALS_OF_CALLS = SOCKETLEMON_REFUSALS - 1 };

/* Whether a number is one of docs/PROTOCOL.md's that calls answer; it is noted as met. */
static int known(uint64_t number) {
    if (number > SOCKETLEMON_REFUSALS || number == SOCKETLEMON_NO_CUTS) return 0;
    met[number] = 1;
    return 1;
}

/* One length of a few: fitting, one off, or anything. */
static size_t around(size_t fits, size_t most) {
    switch (below(6)) {
    case 0: return below(most + 1);
    case 1: return fits ? fits - 1 : 0;
    default: return fits;
    }
}

/* Whether a packet's flags say a piece: a chunk that is no acknowledgement. */
static int is_piece(uint8_t flags) { return (flags & 0x91) == 0x10; }

/* How many packets of a run are pieces. */
static uint64_t pieces_in(const uint8_t *run, size_t len) {
    uint64_t pieces = 0;
    for (size_t at = 0; at + 34 <= len; at += 34 + run[at] * 256u + run[at + 1]) pieces += is_piece(run[at + 34 + 8]);
    return pieces;
}

static void answer(const char *what, socketlemon_answer a, buffer run, size_t changed_stores, buffer *stores) {
    int right = known(a.number) && a.wake <= 1 && a.run <= run.len && same_from(run, (size_t)a.run);
    right = right && a.pieces == pieces_in(run.at, (size_t)a.run) && a.pieces <= SOCKETLEMON_WAKE_PIECES;
    if (a.number != 0) {
        right = right && a.run == 0 && a.wake == 0 && a.pieces == 0 && same_from(run, 0);
        for (size_t i = 0; i < changed_stores; i++) right = right && same_from(stores[i], 0);
    }
    expect(what, right);
}

static uint8_t id[8], here[16], there[16];

/* Few ids, so that calls meet each other's records, and now and then enough to fill a store. */
static void pick_id(uint8_t *at) {
    memset(at, 0, 8);
    at[7] = (uint8_t)(below(3) ? below(3) : below(12));
}

static uint64_t number_at(const uint8_t *at) {
    uint64_t n = 0;
    for (int i = 0; i < 8; i++) n = n * 256 + at[i];
    return n;
}

static void put_number(uint8_t *at, uint64_t n) {
    for (int i = 8; i > 0; n >>= 8) at[--i] = (uint8_t)n;
}

/* What a packet is, by the first flag that fits; acknowledgements are of the first three. */
enum { INIT, CHUNK, DONE, ACK_INIT, ACK_CHUNK, ACK_DONE, READ, ABORTED, NO_KIND, KINDS };

static int kind_of(uint8_t flags) {
    int of = flags & 1 ? ACK_INIT : INIT;
    if (flags & 0x80) return of + INIT;
    if (flags & 0x10) return of + CHUNK;
    if (flags & 0x40) return of + DONE;
    return flags & 1 ? NO_KIND : flags & 0x08 ? READ : flags & 0x20 ? ABORTED : NO_KIND;
}

/* How many bytes a packet needs, in the words of document 02, as far as those that came tell; a sum past 2^64 is the most. */
static uint64_t needed(const uint8_t *frame, size_t len) {
    switch (len > 8 ? kind_of(frame[8]) : NO_KIND) {
    case INIT: return len > 20 ? 21u + frame[20] : 21;
    case CHUNK: return len < 36 ? 36 : number_at(frame + 28) > UINT64_MAX - 36 ? UINT64_MAX : 36 + number_at(frame + 28);
    case DONE: return 52;
    case ACK_CHUNK: return 36;
    default: return 12;
    }
}

/* The refusal that a frame or its run buffer meets before those of its kind, or 0. */
static uint64_t refused_first(buffer frame, buffer run) {
    if (frame.len < 1 || frame.len > SOCKETLEMON_FRAME) return SOCKETLEMON_BAD_FRAME;
    if (frame.len < needed(frame.at, frame.len)) return SOCKETLEMON_SHORT_FRAME;
    if (kind_of(frame.at[8]) == NO_KIND) return SOCKETLEMON_NO_WORK;
    return run.len < SOCKETLEMON_PACKET_RUN ? SOCKETLEMON_SHORT_OUTPUT : 0;
}

/* Frames that came in: of each kind a byte short of what it needs, with all, and with a byte more; of the lengths at which something
 * changes; and with sizes to which 36 can just not be added in 64 bits, and just can. */
enum { BELOW, EXACT, ABOVE, EDGES };
static const size_t lengths[] = {0, 1, 11, 12, 20, 21, 35, 36, 51, 52, SOCKETLEMON_FRAME - 1, SOCKETLEMON_FRAME, SOCKETLEMON_FRAME + 1};
enum { LENGTHS = sizeof lengths / sizeof *lengths };
static unsigned long edges[KINDS][EDGES], at_length[LENGTHS], huge_sizes, rests;

static void note(buffer frame) {
    uint64_t needs = needed(frame.at, frame.len), edge = frame.len + 1 - needs;
    if (frame.len > 8 && edge < EDGES) edges[kind_of(frame.at[8])][edge]++;
    for (size_t i = 0; i < LENGTHS; i++) at_length[i] += frame.len == lengths[i];
    huge_sizes += frame.len >= 36 && kind_of(frame.at[8]) == CHUNK && needs >= UINT64_MAX - 1;
}

/* An init as it came in; zeros behind it. */
typedef struct {
    int there;
    uint8_t frame[SOCKETLEMON_FRAME], from[16], to[16];
    size_t len;
} arrival;

static arrival last; /* the last init that was accepted */

/* The arriving record of a frame's id. */
static const uint8_t *arriving(const uint8_t *store, const uint8_t *frame) {
    for (const uint8_t *record = store + RECORDS_AT; record < store + CELLS_AT; record += RECORD)
        if (record[1] == 1 && memcmp(record + 8, frame, 8) == 0) return record;
    return NULL;
}

/* Whether a record holds what an init says: source, destination, length, topic and reply flag. */
static int holds(const uint8_t *record, const arrival *init) {
    return memcmp(record + 16, init->from, 16) == 0 && memcmp(record + 32, init->to, 16) == 0 && memcmp(record + 48, init->frame + 12, 8) == 0 &&
           record[6] == init->frame[20] && memcmp(record + 72, init->frame + 21, record[6]) == 0 && record[2] == (init->frame[8] >> 2 & 1);
}

/* What an init that was accepted has left, by the record of its id before and after it. */
static void accepted(buffer *stores, const arrival *init) {
    const uint8_t *was = arriving(stores[0].was, init->frame), *is = arriving(stores[0].at, init->frame);
    int equal = was && holds(was, init), pieces = was && was[5] != 0;
    expect("the send store after an init", same_from(stores[1], 0));
    if (equal) {
        expect("an equal init", same_from(stores[0], 0));
        equal_inits += pieces;
    } else {
        size_t length = init->frame[18] * 256u + init->frame[19];
        expect("an init that opens its message", is && holds(is, init) && is[5] == 0 && is[7] == (length + 1299) / 1300);
        other_inits += pieces;
    }
}

/* Chunks that need a cell, or are at a held index, by the cells of their record's source. */
enum { LAST_OF_SOURCE, ABOVE_LIMIT, HELD_AT_LIMIT, WHOLE_COUNTED, BESIDE_FULL, NONE_FREE, OTHER_SENDER, NEITHER, SHARES };
static unsigned long shares[SHARES];

/* How many cells a record has. */
static size_t cells_of(const uint8_t *store, const uint8_t *record) {
    size_t count = 0;
    for (size_t link = record[5]; link; link = store[CELLS_AT + (link - 1) * CELL]) count++;
    return count;
}

/* Whether a record has a piece at an index. */
static int has_piece(const uint8_t *store, const uint8_t *record, uint64_t index) {
    for (size_t link = record[5]; link; link = store[CELLS_AT + (link - 1) * CELL])
        if (store[CELLS_AT + (link - 1) * CELL + 1] == index) return 1;
    return 0;
}

/* How many cells the records of a kind and a source hold: those that arrive, 1, or are whole, 2. */
static size_t cells_from(const uint8_t *store, uint8_t kind, const uint8_t *source) {
    size_t count = 0;
    for (const uint8_t *record = store + RECORDS_AT; record < store + CELLS_AT; record += RECORD)
        if (record[1] == kind && memcmp(record + 16, source, 16) == 0) count += cells_of(store, record);
    return count;
}

/* Whether another source than this one holds as much as it may. */
static int is_beside_full(const uint8_t *store, const uint8_t *source) {
    for (const uint8_t *record = store + RECORDS_AT; record < store + CELLS_AT; record += RECORD)
        if ((record[1] == 1 || record[1] == 2) && memcmp(record + 16, source, 16) != 0 &&
            cells_from(store, 1, record + 16) + cells_from(store, 2, record + 16) == SOCKETLEMON_SOURCE_CELLS)
            return 1;
    return 0;
}

/* The number of a chunk in the words of documents 01 and 02, by the store before it. */
static uint64_t chunk_number(const uint8_t *store, const uint8_t *frame, const uint8_t *from) {
    const uint8_t *record = arriving(store, frame);
    if (!record) return SOCKETLEMON_UNKNOWN_ID;
    uint64_t length = number_at(record + 48), index = number_at(frame + 12), offset = number_at(frame + 20), size = number_at(frame + 28);
    uint64_t top = length ? (length + 249) / 250 - 1 : 0;
    if (offset > length || size > length - offset) return SOCKETLEMON_PAST_END;
    if (index > top) return SOCKETLEMON_HIGH_INDEX;
    if (size < 250 && index != top && offset + size != length) return SOCKETLEMON_SHORT_PIECE;
    int is_free = store[3] != 0, is_other = memcmp(record + 16, from, 16) != 0;
    size_t arrive = cells_from(store, 1, record + 16), all = arrive + cells_from(store, 2, record + 16);
    if (has_piece(store, record, index)) {
        shares[HELD_AT_LIMIT] += all == SOCKETLEMON_SOURCE_CELLS;
        return 0;
    }
    if (all >= SOCKETLEMON_SOURCE_CELLS) {
        shares[ABOVE_LIMIT]++, shares[WHOLE_COUNTED] += arrive < SOCKETLEMON_SOURCE_CELLS, shares[NEITHER] += !is_free;
        shares[OTHER_SENDER] += is_other;
        return SOCKETLEMON_SOURCE_FULL;
    }
    if (!is_free) {
        shares[NONE_FREE]++;
        return SOCKETLEMON_NO_CELL;
    }
    shares[LAST_OF_SOURCE] += all + 1 == SOCKETLEMON_SOURCE_CELLS, shares[BESIDE_FULL] += is_beside_full(store, record + 16);
    return 0;
}

static int same_answer(socketlemon_answer a, socketlemon_answer b) {
    return a.number == b.number && a.run == b.run && a.wake == b.wake && a.pieces == b.pieces;
}

/* Stores, a frame and all that comes with it. */
typedef struct {
    buffer *stores, frame, rules, run;
    const uint8_t *from, *to;
    uint64_t known;
} packet_call;

static socketlemon_answer call_packet(packet_call c) {
    return socketlemon_packet(c.stores[0].at, c.stores[0].len, c.stores[1].at, c.stores[1].len, c.frame.at, c.frame.len, c.from, c.to, c.rules.at,
                              c.rules.len, c.known, c.run.at, c.run.len);
}

/* A packet whose frame has bytes behind those that it needs does what it does without them. */
static void without_rest(packet_call c, socketlemon_answer a) {
    buffer twins[2] = {make(c.stores[0].len), make(c.stores[1].len)};
    buffer run = make(c.run.len), frame = make((size_t)needed(c.frame.at, c.frame.len));
    for (int i = 0; i < 2; i++) memcpy(twins[i].at, c.stores[i].was, twins[i].len);
    memcpy(run.at, c.run.was, run.len), memcpy(frame.at, c.frame.at, frame.len);
    socketlemon_answer b = call_packet((packet_call){twins, frame, c.rules, run, c.from, c.to, c.known});
    expect("the rest of a frame", same_answer(a, b) && memcmp(run.at, c.run.at, run.len) == 0 && memcmp(twins[0].at, c.stores[0].at, twins[0].len) == 0 &&
                                          memcmp(twins[1].at, c.stores[1].at, twins[1].len) == 0);
    rests++;
    drop(twins[0]), drop(twins[1]), drop(run), drop(frame);
}

static void packet_between(buffer *stores, buffer frame, const uint8_t *from, const uint8_t *to) {
    packet_call c = {stores, frame, make(around(1, 60)), make(around(SOCKETLEMON_PACKET_RUN, 200)), from, to, below(2)};
    if (c.rules.len) c.rules.at[0] = (uint8_t)below(3);
    keep(c.run), keep(stores[0]), keep(stores[1]), note(frame);
    socketlemon_answer a = call_packet(c);
    answer("packet", a, c.run, 2, stores);
    expect("a packet sends no piece", a.pieces == 0);
    uint64_t first = refused_first(frame, c.run);
    int is_first = a.number == SOCKETLEMON_BAD_FRAME || a.number == SOCKETLEMON_SHORT_FRAME || a.number == SOCKETLEMON_NO_WORK ||
                   a.number == SOCKETLEMON_SHORT_OUTPUT;
    expect("the frame of a packet", a.number == SOCKETLEMON_UNSOUND_STORE || (first ? a.number == first : !is_first));
    if (!first && a.number != SOCKETLEMON_UNSOUND_STORE && kind_of(frame.at[8]) == CHUNK)
        expect("the number of a chunk", a.number == chunk_number(stores[0].was, frame.at, from));
    if (a.number == 0 && frame.len > needed(frame.at, frame.len) && below(4) == 0) without_rest(c, a);
    if (a.number == 0 && (frame.at[8] & 0x81) == 0x80) {
        memset(&last, 0, sizeof last);
        last.there = 1, last.len = frame.len;
        memcpy(last.frame, frame.at, frame.len), memcpy(last.from, from, 16), memcpy(last.to, to, 16);
        accepted(stores, &last);
    }
    drop(c.run), drop(c.rules);
}

static void packet(buffer *stores, buffer frame) { packet_between(stores, frame, there, here); }

/* The last init again, now and then with something changed. */
static void repeated_init(buffer *stores) {
    arrival init = last;
    switch (below(14)) {
    case 0: init.from[below(16)] ^= 1; break;
    case 1: init.to[below(16)] ^= 1; break;
    case 2: init.frame[19] ^= (uint8_t)(1 + below(3)); break;
    case 3: init.frame[20] ^= 1; break;
    case 4: init.frame[21] ^= 1; break;
    case 5: init.frame[8] ^= 4; break;
    case 6: init.frame[8] |= (uint8_t)next() & 0x7a, init.frame[9] = (uint8_t)next(), init.frame[11] = (uint8_t)next(); break;
    case 7: init.len = (size_t)needed(init.frame, init.len) - below(2); break;
    case 8: init.len = SOCKETLEMON_FRAME - below(2); break;
    default: break;
    }
    buffer frame = make(init.len);
    memcpy(frame.at, init.frame, last.len < init.len ? last.len : init.len);
    packet_between(stores, frame, init.from, init.to);
    drop(frame);
}

/* A length for a frame with these bytes: mostly what it needs, one off or all there is, now and then one at which something changes,
 * or anything. */
static size_t pick_length(const uint8_t *bytes, size_t most) {
    size_t needs = needed(bytes, most) < SOCKETLEMON_FRAME ? (size_t)needed(bytes, most) : SOCKETLEMON_FRAME;
    switch (below(8)) {
    case 0: return lengths[below(LENGTHS)];
    case 1: return below(most + 1);
    case 2: return needs - 1;
    case 3: return needs + 1;
    case 4: return SOCKETLEMON_FRAME;
    default: return needs;
    }
}

static void random_packet(buffer *stores) {
    static const uint8_t flags[] = {0x80, 0x10, 0x40, 0x20, 0x08, 0x81, 0x11, 0x41};
    static const uint64_t sizes[] = {UINT64_MAX, UINT64_MAX - 34, UINT64_MAX - 35, UINT64_MAX - 36, 1365, 1364};
    buffer all = make(1500);
    if (below(8)) {
        pick_id(all.at);
        all.at[8] = below(4) ? flags[below(sizeof flags)] : (uint8_t)next();
        memset(all.at + 12, 0, 24);
        all.at[18] = (uint8_t)below(6), all.at[19] = (uint8_t)below(8), all.at[27] = (uint8_t)below(3), all.at[34] = (uint8_t)below(6), all.at[35] = (uint8_t)next();
        if (below(16) == 0) put_number(all.at + 28, sizes[below(sizeof sizes / sizeof *sizes)]);
    }
    buffer frame = make(pick_length(all.at, all.len));
    if (frame.len) memcpy(frame.at, all.at, frame.len);
    packet(stores, frame);
    drop(frame), drop(all);
}

/* The packets of a run, each handed to the stores that sent it: a node that talks to itself. */
static void loop_back(buffer *stores, const uint8_t *run, size_t len) {
    for (size_t at = 0; at + 34 <= len;) {
        size_t n = run[at] * 256u + run[at + 1];
        buffer frame = make(below(12) ? n : n - 1 + below(3));
        memcpy(frame.at, run + at + 34, n < frame.len ? n : frame.len);
        if (below(12) == 0) frame.at[below(frame.len < 60 ? frame.len : 60)] ^= 1;
        if (below(5)) packet(stores, frame);
        frame.at[8] |= 1;
        if (below(3)) packet(stores, frame);
        drop(frame);
        at += 34 + n;
    }
}

/* A calendar as document 02 has it, in its own words: seven windows, the offset, the number of closed dates, and these. */
enum { WINDOWS = 7, OFFSET_AT = 28, DATES_AT = 31, MOST_DATES = 32, DAY_MINUTES = 1440, OFFSET_LEAST = -720, OFFSET_MOST = 840 };
enum { SEND = 1, DEADLINE = 2, WEDNESDAY = 2 };

typedef struct {
    uint64_t year, month, day;
} date;

static unsigned pair(const uint8_t *at) { return at[0] * 256u + at[1]; }

static void put_pair(uint8_t *at, unsigned n) { at[0] = (uint8_t)(n >> 8), at[1] = (uint8_t)n; }

static uint64_t year_days(uint64_t y) { return y % 400 == 0 || (y % 4 == 0 && y % 100 != 0) ? 366 : 365; }

static uint64_t month_days(uint64_t y, uint64_t m) {
    static const uint8_t days[] = {31, 28, 31, 30, 31, 30, 31, 31, 30, 31, 30, 31};
    return days[m - 1] + (m == 2 && year_days(y) == 366);
}

static date closed_date(buffer c, size_t i) {
    const uint8_t *at = c.at + DATES_AT + 4 * i;
    return (date){pair(at), at[2], at[3]};
}

static int well_formed(buffer c) {
    if (c.len < DATES_AT || c.at[DATES_AT - 1] > MOST_DATES || c.len != SOCKETLEMON_CALENDAR(c.at[DATES_AT - 1])) return 0;
    if (pair(c.at + OFFSET_AT) > OFFSET_MOST - OFFSET_LEAST) return 0;
    for (const uint8_t *at = c.at; at < c.at + 4 * WINDOWS; at += 4) {
        unsigned opening = pair(at), closing = pair(at + 2);
        if (closing > DAY_MINUTES || (opening >= closing && (opening || closing))) return 0;
    }
    for (size_t i = 0; i < c.at[DATES_AT - 1]; i++) {
        date d = closed_date(c, i);
        if (d.year < 1970 || d.year > 9999 || d.month < 1 || d.month > 12 || d.day < 1 || d.day > month_days(d.year, d.month)) return 0;
    }
    return 1;
}

/* The date so many days after 31 December 1969, a Wednesday: years and months are counted. 400 years have 146,097 days. */
static date date_after(uint64_t days) {
    if (days == 0) return (date){1969, 12, 31};
    date d = {1970 + 400 * ((days - 1) / 146097), 1, 0};
    for (days = (days - 1) % 146097; days >= year_days(d.year); d.year++) days -= year_days(d.year);
    for (; days >= month_days(d.year, d.month); d.month++) days -= month_days(d.year, d.month);
    d.day = days + 1;
    return d;
}

static int is_open(buffer c, uint64_t unix_ms) {
    uint64_t local = unix_ms / 60000 + DAY_MINUTES + pair(c.at + OFFSET_AT) + OFFSET_LEAST, days = local / DAY_MINUTES;
    const uint8_t *window = c.at + (days + WEDNESDAY) % WINDOWS * 4;
    if (local % DAY_MINUTES < pair(window) || local % DAY_MINUTES >= pair(window + 2)) return 0;
    date today = date_after(days);
    for (size_t i = 0; i < c.at[DATES_AT - 1]; i++) {
        date d = closed_date(c, i);
        if (d.year == today.year && d.month == today.month && d.day == today.day) return 0;
    }
    return 1;
}

/* Ways to spoil a calendar, and how often each was met; wakes that would have sent something, outside hours and within a window. */
enum { CUT, TOO_LONG, WRONG_DATE, WRONG_WINDOW, LATE_WINDOW, WRONG_OFFSET, MANY_DATES, NOISE, WAYS };
static unsigned long spoiled[WAYS], shut_wakes, open_wakes;

static const uint8_t always[SOCKETLEMON_CALENDAR(0)] = {0, 0, 5, 160, 0, 0, 5, 160, 0, 0, 5, 160, 0, 0, 5,   160,
                                                        0, 0, 5, 160, 0, 0, 5, 160, 0, 0, 5, 160, 2, 208, 0};

/* A calendar of exactly so many dates, around one day of its own: with random windows, or open all the time but for its dates. */
static buffer calendar_about(uint64_t days, size_t dates) {
    buffer c = make(SOCKETLEMON_CALENDAR(dates));
    memcpy(c.at, always, sizeof always);
    for (uint8_t *at = c.at; below(2) && at < c.at + 4 * WINDOWS; at += 4) {
        unsigned opening = (unsigned)below(DAY_MINUTES);
        put_pair(at, opening), put_pair(at + 2, below(3) ? opening + 1 + (unsigned)below(DAY_MINUTES - opening) : DAY_MINUTES);
        if (below(6) == 0) memset(at, 0, 4);
    }
    put_pair(c.at + OFFSET_AT, (unsigned)around(below(2) ? 720 : 1560, 1560));
    c.at[DATES_AT - 1] = (uint8_t)dates;
    for (size_t i = 0; i < dates; i++) {
        uint64_t near = days + below(40);
        date d = date_after(near > 20 ? near - 20 : 1);
        if (d.year < 1970 || d.year > 9999) d = (date){2000, 2, 29};
        uint8_t *at = c.at + DATES_AT + 4 * i;
        put_pair(at, (unsigned)d.year), at[2] = (uint8_t)d.month, at[3] = (uint8_t)d.day;
    }
    return c;
}

/* The same calendar in another length. */
static buffer resized(buffer c, size_t len) {
    buffer other = make(len);
    if (len) memcpy(other.at, c.at, len < c.len ? len : c.len);
    drop(c);
    return other;
}

/* A calendar with something wrong. */
static buffer spoil(buffer c) {
    static const uint16_t wrong[][3] = {{2026, 4, 31}, {2100, 2, 29},  {2026, 0, 1},  {2026, 13, 1}, {2026, 1, 0},
                                        {1969, 12, 31}, {10000, 1, 1}, {2027, 2, 29}, {2026, 1, 32}};
    size_t way = below(WAYS), dates = c.at[DATES_AT - 1];
    uint8_t *window = c.at + 4 * below(WINDOWS);
    spoiled[way]++;
    switch (way) {
    case CUT: return resized(c, below(2) ? below(c.len) : c.len - 1);
    case TOO_LONG: return resized(c, c.len + 1 + (below(2) ? 3 : below(9)));
    case WRONG_DATE: {
        if (dates == 0) c = resized(c, SOCKETLEMON_CALENDAR(dates = 1));
        c.at[DATES_AT - 1] = (uint8_t)dates;
        uint8_t *at = c.at + DATES_AT + 4 * below(dates);
        const uint16_t *d = wrong[below(sizeof wrong / sizeof *wrong)];
        put_pair(at, d[0]), at[2] = (uint8_t)d[1], at[3] = (uint8_t)d[2];
        break;
    }
    case WRONG_WINDOW: {
        unsigned closing = (unsigned)below(DAY_MINUTES + 1), opening = closing + (unsigned)below(3);
        put_pair(window, opening ? opening : 1), put_pair(window + 2, closing);
        break;
    }
    case LATE_WINDOW: put_pair(window, (unsigned)below(DAY_MINUTES)), put_pair(window + 2, DAY_MINUTES + 1 + (unsigned)below(3)); break;
    case WRONG_OFFSET: put_pair(c.at + OFFSET_AT, 1561 + (unsigned)below(below(2) ? 2 : 63974)); break;
    case MANY_DATES:
        drop(c);
        return calendar_about(20000, MOST_DATES + 1);
    default:
        for (size_t i = 0; i < c.len; i++) c.at[i] = (uint8_t)next();
        c.at[0] |= 8;
    }
    return c;
}

/* A time at which the calendar opens or closes on a local day, so many after 31 December 1969, or the millisecond before. */
static uint64_t bound(buffer c, uint64_t days) {
    const uint8_t *window = c.at + (days + WEDNESDAY) % WINDOWS * 4;
    uint64_t local = (days - 1) * DAY_MINUTES + pair(window + 2 * below(2));
    return (local - OFFSET_LEAST - pair(c.at + OFFSET_AT)) * 60000 - below(2);
}

/* A calendar and a time: mostly about the time, at one of its bounds or anywhere, else always open; now and then spoiled. */
static buffer pick_hours(uint64_t *unix_ms) {
    uint64_t days = 2 + (below(3) ? below(60000) : below(8) ? below(3000000) : next() / 86400000 % 200000000);
    *unix_ms = below(9) ? days * 86400000 + below(86400000) : next() >> below(64);
    if (below(3) == 0) {
        buffer c = make(sizeof always);
        memcpy(c.at, always, c.len);
        return c;
    }
    buffer c = calendar_about(days, below(2) ? below(4) : below(MOST_DATES + 1));
    if (below(2)) *unix_ms = bound(c, days);
    if (below(4)) return c;
    c = spoil(c);
    expect("a spoiled calendar by the model", !well_formed(c));
    return c;
}

/* The pieces that want sending, of which the first eight are sent, in the words of document 02. */
typedef struct {
    uint64_t stamp;
    int sent; /* 0 for a piece that was never sent */
    uint8_t index;
    size_t at; /* where its cell stands */
} piece;

/* Wakes that had more to send than eight, and of those that sent any: with pieces of both kinds, with stamps that differ. */
static unsigned long full_wakes, mixed_wakes, aged_wakes;

static int goes_before(piece a, piece b) {
    if (a.sent != b.sent) return b.sent;
    return a.stamp != b.stamp ? a.stamp < b.stamp : a.index < b.index;
}

/* The pieces of the leaving message with this id that want sending at a clock, in the order of sending. */
static size_t wanting(const uint8_t *store, uint64_t clock, piece *list) {
    size_t count = 0;
    for (const uint8_t *record = store + RECORDS_AT; record < store + CELLS_AT; record += RECORD) {
        if (record[1] != 3 || memcmp(record + 8, id, 8) != 0 || record[3] != 1) continue;
        for (size_t link = record[5]; link; link = store[CELLS_AT + (link - 1) * CELL]) {
            size_t at = CELLS_AT + (link - 1) * CELL;
            piece p = {number_at(store + at + 4), store[at + 12], store[at + 1], at};
            if (p.sent == 2 || (p.sent == 1 && (clock < p.stamp || clock - p.stamp < 100))) continue;
            size_t place = count++;
            for (; place > 0 && goes_before(p, list[place - 1]); place--) list[place] = list[place - 1];
            list[place] = p;
        }
    }
    return count;
}

/* What a send wake that was answered 0 has sent and stamped: the first eight, or all if fewer. */
static void sent_first(buffer send, uint64_t clock, socketlemon_answer a, const uint8_t *run) {
    piece list[45];
    size_t wants = wanting(send.was, clock, list), sends = wants < SOCKETLEMON_WAKE_PIECES ? wants : SOCKETLEMON_WAKE_PIECES, at = 0;
    int right = a.pieces == sends && (sends == 0 || memcmp(send.at, send.was, CELLS_AT) == 0);
    for (size_t i = 0; right && i < sends; i++) {
        uint8_t *cell = send.at + list[i].at, *was = send.was + list[i].at;
        right = is_piece(run[at + 34 + 8]) && number_at(run + at + 34 + 12) == list[i].index && number_at(cell + 4) == clock && cell[12] == 1;
        at += 34 + run[at] * 256u + run[at + 1];
        memcpy(was + 4, cell + 4, 9);
    }
    /* but for those stamps nothing has changed */
    expect("the pieces of a wake", right && at == (sends ? a.run : 0) && same_from(send, 0));
    full_wakes += wants > sends;
    mixed_wakes += sends && !list[0].sent && list[sends - 1].sent;
    aged_wakes += sends && list[sends - 1].sent && list[sends - 1].stamp != list[0].stamp && list[0].sent;
}

/* A wake by a calendar, beside the same wake by one that is always open. A deadline wake does the same. A send wake does so within
 * hours; outside it gives the same refusal or does nothing; and a calendar that is none is 26, behind 25 and 20. */
static socketlemon_answer wake(buffer send, uint64_t kind, uint64_t clock, buffer run) {
    uint64_t unix_ms;
    buffer c = pick_hours(&unix_ms), twin = make(send.len), twin_run = make(run.len);
    memcpy(twin.at, send.at, send.len);
    if (run.len) memcpy(twin_run.at, run.at, run.len);
    keep(send), keep(run), keep(c);
    socketlemon_answer b = socketlemon_wake(twin.at, twin.len, kind, id, clock, always, sizeof always, 0, twin_run.at, twin_run.len);
    socketlemon_answer a = socketlemon_wake(send.at, send.len, kind, id, clock, c.at, c.len, unix_ms, run.at, run.len);
    answer("wake", a, run, 1, &send);
    expect("the calendar stays", same_from(c, 0));
    int formed = well_formed(c), is_short = run.len < SOCKETLEMON_WAKE_RUN;
    if (kind == SEND && formed && b.number != SOCKETLEMON_UNSOUND_STORE)
        expect("a send wake's run buffer", (a.number == SOCKETLEMON_SHORT_OUTPUT) == is_short);
    if (kind == SEND && !formed && b.number != SOCKETLEMON_UNSOUND_STORE) {
        expect("a wake with a bad calendar", a.number == SOCKETLEMON_BAD_CALENDAR);
    } else if (kind == SEND && formed && !is_open(c, unix_ms)) {
        expect("a wake outside hours", a.number == b.number && a.run == 0 && a.wake == 0 && a.pieces == 0 && same_from(send, 0) && same_from(run, 0));
        shut_wakes += b.run > 0;
    } else {
        int same = memcmp(send.at, twin.at, send.len) == 0 && (run.len == 0 || memcmp(run.at, twin_run.at, run.len) == 0);
        expect("a wake within hours, or of another kind", same_answer(a, b) && same);
        open_wakes += kind == SEND && b.run > 0 && memcmp(c.at, always, DATES_AT) != 0;
        if (kind == SEND && a.number == 0) sent_first(send, clock, a, run.at);
    }
    expect("only a send wake sends pieces", kind == SEND || a.pieces == 0);
    drop(c), drop(twin), drop(twin_run);
    return a;
}

/* A message that was pushed goes on its way, more or less. */
static void carry(buffer *stores, const uint8_t *run, size_t len) {
    loop_back(stores, run, len);
    for (uint64_t clock = 1000; clock < 2000 && below(8); clock += below(3) ? 100 : below(120)) {
        buffer out = make(SOCKETLEMON_WAKE_RUN);
        socketlemon_answer a = wake(stores[1], SEND, clock, out);
        if (a.number == 0) loop_back(stores, out.at, (size_t)a.run);
        drop(out);
    }
}

/* What a take that was answered 0 has written: the record, and as many bytes as its length says. */
static size_t taken_size(buffer data) {
    size_t total = 0;
    for (size_t i = 48; i < 56; i++) total = total * 256 + data.at[i];
    return RECORD + total;
}

static void one_call(buffer *stores) {
    buffer send = stores[1], run = {0}, data = {0};
    pick_id(id);
    switch (below(7)) {
    case 0: {
        data = make(below(4) ? below(3000) : around(32500, 33000)), run = make(around(SOCKETLEMON_PUSH_RUN, 400));
        buffer topic = make(around(255, 300));
        keep(run), keep(send);
        socketlemon_answer a = socketlemon_push(send.at, send.len, id, below(3), there, here, topic.at, topic.len, data.at, data.len, next() >> below(64), next() >> below(64), run.at, run.len);
        answer("push", a, run, 1, &send);
        expect("a push sends no piece", a.pieces == 0);
        if (a.number == 0) carry(stores, run.at, (size_t)a.run);
        drop(topic);
        break;
    }
    case 1: {
        run = make(around(SOCKETLEMON_WAKE_RUN, 20000));
        socketlemon_answer a = wake(send, below(9) ? SEND : below(4), next() >> below(64), run);
        if (a.number == 0) loop_back(stores, run.at, (size_t)a.run);
        break;
    }
    case 2: {
        run = make(around(SOCKETLEMON_REPORT, 60));
        keep(run), keep(send);
        socketlemon_answer a = socketlemon_report(send.at, send.len, id, run.at, run.len);
        expect("report", known(a.number) && a.run == 0 && a.wake == 0 && a.pieces == 0 && same_from(send, 0) && same_from(run, a.number ? 0 : SOCKETLEMON_REPORT));
        break;
    }
    case 3: {
        run = make(around(SOCKETLEMON_TAKE_RUN, 60)), data = make(around(SOCKETLEMON_TAKE_DATA + below(3), 33000));
        keep(run), keep(stores[0]), keep(data);
        socketlemon_answer a = socketlemon_take(stores[0].at, stores[0].len, data.at, data.len, run.at, run.len);
        answer("take", a, run, 1, stores);
        expect("a take sends no piece", a.pieces == 0);
        expect("take's data", same_from(data, a.number ? 0 : taken_size(data)));
        break;
    }
    case 4: {
        buffer key = make(around(32, 40));
        run = make(around(SOCKETLEMON_ADDRESS, 20));
        keep(run);
        socketlemon_answer a = socketlemon_address(key.at, key.len, run.at, run.len);
        expect("address", known(a.number) && a.number <= SOCKETLEMON_SHORT_OUTPUT && a.run == 0 && a.wake == 0 && a.pieces == 0 &&
                                  same_from(run, a.number ? 0 : SOCKETLEMON_ADDRESS));
        drop(key);
        break;
    }
    default:
        if (last.there && below(4) == 0) repeated_init(stores);
        random_packet(stores);
    }
    drop(run), drop(data);
}

/* A packet of one of a few messages, of which two sources have announced some each. */
static void crowd_packet(buffer *stores, uint8_t flags, uint8_t message, uint64_t first, uint64_t offset, uint64_t size) {
    static const uint8_t empty_sum[32] = {0xaf, 0x13, 0x49, 0xb9, 0xf5, 0xf9, 0xa1, 0xa6, 0xa0, 0x40, 0x4d, 0xea, 0x36, 0xdc, 0xc9, 0x49,
                                          0x9b, 0xcb, 0x25, 0xc9, 0xad, 0xc1, 0x12, 0xb7, 0xcc, 0x9a, 0x93, 0xca, 0xe4, 0x1f, 0x32, 0x62};
    uint8_t from[16] = {0};
    buffer frame = make(52 + (size_t)size);
    memset(frame.at, 0, 36);
    frame.at[7] = message, frame.at[8] = flags;
    put_number(frame.at + 12, first), put_number(frame.at + 20, offset), put_number(frame.at + 28, size);
    if (flags == 0x40) memcpy(frame.at + 20, empty_sum, sizeof empty_sum);
    from[15] = flags == 0x80 ? message % 2 : (uint8_t)below(2);
    packet_between(stores, frame, from, here);
    drop(frame);
}

/* Two sources fill a store: pieces of long messages, and messages of no bytes with a piece of none, which become whole. */
static void crowd(buffer *stores) {
    for (uint8_t message = 0; message < 8; message++)
        for (int tries = 0; tries < 20 && !arriving(stores[0].at, (const uint8_t[8]){0, 0, 0, 0, 0, 0, 0, message}); tries++)
            crowd_packet(stores, 0x80, message, message < 4 ? 32500 : 0, 0, 0);
    for (size_t calls = below(300); calls > 0; calls--) {
        uint8_t message = (uint8_t)below(below(3) ? 3 : 8);
        switch (below(16)) {
        case 0: crowd_packet(stores, 0x80, message, message < 4 ? 32500 - below(2) * below(2) : 0, 0, 0); break;
        case 1: crowd_packet(stores, 0x40, message, 1, 0, 0); break;
        case 2:
            if (below(16) == 0) crowd_packet(stores, 0x20, message, 0, 0, 0);
            break;
        case 3: crowd_packet(stores, 0x10, message, below(140), below(2) ? 32500 : below(40000), below(400)); break;
        default:
            if (message < 4) crowd_packet(stores, 0x10, message, below(36), 0, 250);
            else crowd_packet(stores, 0x10, message, 0, 0, 0);
        }
    }
}

/* The two ways to make a sum, and how often each was met with which lengths: with an output like any other,
 * with none, with the longest; and what is refused: a longer one and, of keyed sums, other keys or both. */
enum { KEYED, DERIVED, WAYS_TO_SUM };
enum { USUAL, NO_OUTPUT, LONGEST, LONG_OUTPUT, SHORT_KEY, LONG_KEY, BOTH_BAD, SUM_LENGTHS };
static unsigned long sums[WAYS_TO_SUM][SUM_LENGTHS];

/* Which of the lengths above these are; of a derived sum, the context may have any. */
static int lengths_of(int way, size_t key, size_t out) {
    int is_bad_key = way == KEYED && key != 32;
    if (out > 65536) return is_bad_key ? BOTH_BAD : LONG_OUTPUT;
    if (is_bad_key) return key < 32 ? SHORT_KEY : LONG_KEY;
    return out == 0 ? NO_OUTPUT : out == 65536 ? LONGEST : USUAL;
}

/* A length: one at which blocks of 64 bytes, chunks of 1,024 or what is allowed begin or end, or any. */
static size_t pick_sum_length(void) {
    static const size_t turns[] = {0,    1,    31,   32,   33,   63,   64,   65,   127,   128,   129,
                                   1023, 1024, 1025, 2048, 2049, 3072, 3073, 4096, 4097, 65535, 65536,
                                   65537};
    return below(3) ? turns[below(sizeof turns / sizeof *turns)] : below(below(4) ? 200 : 70000);
}

/* A sum of either way; `key` is the key or the context. */
static socketlemon_answer call_sum(int way, buffer key, buffer input, buffer out) {
    if (way == KEYED) return socketlemon_keyed_hash(key.at, key.len, input.at, input.len, out.at, out.len);
    return socketlemon_derive_key(key.at, key.len, input.at, input.len, out.at, out.len);
}

/* What the model gives, in the place of what was there. */
static void model_of(int way, buffer key, buffer input, buffer out) {
    if (way == KEYED) model_keyed_hash(key.at, input.at, input.len, out.was, out.len);
    else model_derive_key(key.at, key.len, input.at, input.len, out.was, out.len);
}

/* A keyed or derived sum: its number by the lengths, its bytes by the model; a refusal changes nothing. */
static void one_sum(void) {
    int way = (int)below(WAYS_TO_SUM);
    size_t near_32 = below(4) ? 32 : below(2) ? 31 + 2 * below(2) : pick_sum_length();
    buffer key = make(way == KEYED ? near_32 : pick_sum_length());
    buffer input = make(pick_sum_length()), out = make(pick_sum_length());
    int lengths = lengths_of(way, key.len, out.len), is_bad = lengths >= LONG_OUTPUT;
    keep(key), keep(input), keep(out);
    socketlemon_answer a = call_sum(way, key, input, out);
    sums[way][lengths]++;
    expect("the number of a sum", known(a.number) && a.number == (is_bad ? SOCKETLEMON_BAD_LENGTHS : 0));
    expect("a sum sends nothing", a.run == 0 && a.wake == 0 && a.pieces == 0);
    if (!is_bad) model_of(way, key, input, out);
    expect(is_bad ? "a refused sum" : "the bytes of a sum", same_from(out, 0));
    expect("key and input of a sum stay", same_from(key, 0) && same_from(input, 0));
    drop(key), drop(input), drop(out);
}

/* Tells of the sums; whether each way was met with each of its lengths. */
static int all_sums_met(void) {
    enum { TO_MEET = SUM_LENGTHS + LONG_OUTPUT + 1 };
    unsigned long lengths_met = 0, made = 0, refused = 0;
    for (int i = 0; i < WAYS_TO_SUM * SUM_LENGTHS; i++) {
        unsigned long count = sums[i / SUM_LENGTHS][i % SUM_LENGTHS];
        lengths_met += count > 0;
        if (i % SUM_LENGTHS < LONG_OUTPUT) made += count;
        else refused += count;
    }
    printf("sums beside the model: %lu made, %lu refused; lengths of both ways: %lu of %d met\n", made,
           refused, lengths_met, TO_MEET);
    return lengths_met == TO_MEET;
}

/* How often plans were asked for with which number of pieces: as few as there can be, as many, between them; one
 * too few, one too many, any other; of a message that is too long; and with a buffer that is too short. */
enum { FEWEST, MOST, BETWEEN, ONE_TOO_FEW, ONE_TOO_MANY, OTHER_NUMBER, LONG_MESSAGE, SHORT_BUFFER, PLANS };
static unsigned long plans[PLANS];

/* The sizes for a number of pieces, each as large as a frame and what is left allow; whether a fresh receiver,
 * in the words of documents 01 and 02, keeps them at rising indexes and takes a done with that count. */
static int model_plan(uint64_t length, uint64_t pieces, unsigned *sizes) {
    uint64_t left = length, top = length ? (length + 249) / 250 - 1 : 0, slots = (length + 1299) / 1300;
    if (length > 32500 || pieces > SOCKETLEMON_SOURCE_CELLS) return 0;
    for (uint64_t index = 0; index < pieces; index++) {
        sizes[index] = left < 1364 ? (unsigned)left : 1364;
        left -= sizes[index];
        if (index > top || (sizes[index] < 250 && index != top && left != 0)) return 0;
    }
    return left == 0 && pieces >= slots;
}

/* Which of the numbers above these are. */
static int plan_of(uint64_t length, uint64_t pieces, size_t out_len) {
    unsigned sizes[SOCKETLEMON_SOURCE_CELLS];
    if (out_len < SOCKETLEMON_PLAN) return SHORT_BUFFER;
    if (length > 32500) return LONG_MESSAGE;
    int fewer = pieces > 0 && model_plan(length, pieces - 1, sizes);
    int more = pieces < UINT64_MAX && model_plan(length, pieces + 1, sizes);
    if (model_plan(length, pieces, sizes)) return !fewer ? FEWEST : !more ? MOST : BETWEEN;
    return more ? ONE_TOO_FEW : fewer ? ONE_TOO_MANY : OTHER_NUMBER;
}

/* A length at which the number of pieces may change, or any, now and then one that no message has. */
static uint64_t pick_plan_length(void) {
    switch (below(8)) {
    case 0: return 32500 + below(3);
    case 1: return next() >> below(64);
    case 2: return below(32501);
    case 3: return below(1500);
    case 4: return 1364 * (1 + below(23)) - 1 + below(3);
    case 5: return 1300 * below(26) + below(2);
    default: return 250 * below(131) + below(2);
    }
}

/* A number of pieces: near as few or as many as there can be, or any. */
static uint64_t pick_number_of_pieces(uint64_t length) {
    switch (below(8)) {
    case 0: return next() >> below(64);
    case 1: return length / 250 + below(3);
    case 2:
    case 3: return length / 1300 + below(3);
    default: return below(34);
    }
}

/* A plan: its number and its sizes by the model; what is behind them, and all of a refused one, stays. */
static void one_plan(void) {
    unsigned sizes[SOCKETLEMON_SOURCE_CELLS];
    uint64_t length = pick_plan_length(), pieces = pick_number_of_pieces(length);
    buffer out = make(around(SOCKETLEMON_PLAN + below(2), 80));
    int which = plan_of(length, pieces, out.len), is_made = which <= BETWEEN;
    plans[which]++;
    keep(out);
    socketlemon_answer a = socketlemon_plan(length, pieces, out.at, out.len);
    uint64_t refusal = which == SHORT_BUFFER ? SOCKETLEMON_SHORT_OUTPUT : SOCKETLEMON_NO_PLAN;
    expect("the number of a plan", known(a.number) && a.number == (is_made ? 0 : refusal));
    expect("the run of a plan", a.run == (is_made ? 2 * pieces : 0) && a.wake == 0 && a.pieces == 0);
    if (is_made && model_plan(length, pieces, sizes))
        for (uint64_t i = 0; i < pieces; i++) put_pair(out.was + 2 * i, sizes[i]);
    expect(is_made ? "the sizes of a plan" : "a refused plan", same_from(out, 0));
    drop(out);
}

/* Tells of the plans; whether each kind of number was met. */
static int all_plans_met(void) {
    unsigned long met_kinds = 0, made = 0, refused = 0;
    for (int which = 0; which < PLANS; which++) {
        met_kinds += plans[which] > 0;
        if (which <= BETWEEN) made += plans[which];
        else refused += plans[which];
    }
    printf("plans beside the model: %lu made, %lu refused; numbers of pieces around their bounds: %lu of %d met\n",
           made, refused, met_kinds, PLANS);
    return met_kinds == PLANS;
}

static void sequence(void) {
    size_t cells = below(4) ? 1 + below(45) : 45;
    buffer stores[2] = {make(SOCKETLEMON_STORE_BYTES(cells)), make(SOCKETLEMON_STORE_BYTES(1 + below(45)))};
    for (int i = 0; i < 2; i++) {
        size_t less = below(10) == 0;
        uint64_t role = below(10) ? 1 + (uint64_t)i : 3;
        keep(stores[i]);
        socketlemon_answer a = socketlemon_setup(stores[i].at, stores[i].len - less, role);
        expect("setup", known(a.number) && a.run == 0 && a.wake == 0 && a.pieces == 0 && (less || role == 3 ? a.number == SOCKETLEMON_UNSOUND_STORE && same_from(stores[i], 0) : a.number == 0));
        if (a.number != 0) socketlemon_setup(stores[i].at, stores[i].len, 1 + (uint64_t)i);
    }
    last.there = 0;
    if (below(4) == 0) crowd(stores);
    for (size_t calls = below(120); calls > 0; calls--) one_call(stores);
    for (size_t calls = below(4); calls > 0; calls--) one_sum();
    for (size_t calls = below(8); calls > 0; calls--) one_plan();
    /* then a few calls on stores that somebody else has written to */
    for (size_t hits = 1 + below(4); hits > 0; hits--) {
        buffer hit = stores[below(2)];
        hit.at[below(4) ? below(16 + 8 * 328) : below(hit.len)] = (uint8_t)(below(2) ? next() : below(48));
        one_call(stores);
    }
    drop(stores[0]), drop(stores[1]);
}

int main(int argc, char **argv) {
    state = argc > 1 ? strtoull(argv[1], NULL, 0) * 2 + 1 : 1;
    for (unsigned long rounds = argc > 2 ? strtoul(argv[2], NULL, 0) : 300; rounds > 0; rounds--) sequence();
    int refusals = 0, wants_all = argc > 3 && strcmp(argv[3], "all") == 0;
    for (int number = 1; number <= SOCKETLEMON_REFUSALS; number++) refusals += met[number];
    unsigned long ways = 0;
    for (int way = 0; way < WAYS; way++) ways += spoiled[way] > 0;
    printf("%lu answers right, %lu wrong; refusals of calls met: %d of %d; inits of messages with pieces: %lu equal, %lu others\n", passed, failed, refusals,
           REFUSALS_OF_CALLS, equal_inits, other_inits);
    unsigned long edges_met = 0, lengths_met = 0;
    for (int i = 0; i < KINDS * EDGES; i++) edges_met += edges[i / EDGES][i % EDGES] > 0;
    for (int i = 0; i < LENGTHS; i++) lengths_met += at_length[i] > 0;
    printf("frames a byte short, exact and a byte longer: %lu of %d met; lengths: %lu of %d; sizes near 2^64: %lu; with a rest that is not read: %lu\n",
           edges_met, KINDS * EDGES, lengths_met, LENGTHS, huge_sizes, rests);
    unsigned long shares_met = 0;
    for (int i = 0; i < SHARES; i++) shares_met += shares[i] > 0;
    printf("pieces of a source with 29 cells: %lu kept; with 30: %lu refused (%lu with whole messages among them, %lu from another sender, %lu with no cell "
           "free), %lu kept at a held index; of another beside it: %lu kept; %lu refused for want of a cell alone\n",
           shares[LAST_OF_SOURCE], shares[ABOVE_LIMIT], shares[WHOLE_COUNTED], shares[OTHER_SENDER], shares[NEITHER], shares[HELD_AT_LIMIT],
           shares[BESIDE_FULL], shares[NONE_FREE]);
    printf("wakes with something to send: %lu outside hours, %lu within a window; calendars spoiled in %lu of %d ways\n", shut_wakes, open_wakes, ways, WAYS);
    printf("wakes with more to send than eight: %lu; that sent new and due pieces: %lu; due ones of several stamps: %lu\n", full_wakes, mixed_wakes, aged_wakes);
    int wakes = shut_wakes && open_wakes && full_wakes && mixed_wakes && aged_wakes;
    int frames = edges_met == KINDS * EDGES && lengths_met == LENGTHS && huge_sizes && rests;
    int others = equal_inits && other_inits && shares_met == SHARES && ways == WAYS;
    int sums_met = all_sums_met(), plans_met = all_plans_met();
    int all = sums_met && plans_met && wakes && frames && others && refusals == REFUSALS_OF_CALLS;
    return failed != 0 || (wants_all && !all);
}

/* Socketlemon: message transfer on two byte stores that the caller lends. docs/PROTOCOL.md says what each call does.
 *
 * Bytes of any content, and slices of any length, get an answer. What a call cannot check, its caller answers for:
 * - A byte slice is a pointer and a length, and the pointer leads to that many bytes, which may be read, and written
 *   where the parameter is not const. Where the length is 0, the pointer may be any address but NULL.
 * - `id` leads to 8 bytes, `from` and `to` to 16 each: they have no length.
 * - A slice that is written (no const) does not overlap with any other argument.
 *
 * A number that means yes or no is yes when it is not 0. Link with libsocketlemon.a (`tools/build library socketlemon`). */
#ifndef SOCKETLEMON_H
#define SOCKETLEMON_H

#include <stddef.h>
#include <stdint.h>

#ifdef __cplusplus
extern "C" {
#endif

/* What a call answers: the number (0: done, else one of the refusals below, which changed nothing), how many bytes of
 * the run were written, whether all senders should wake, and how many of the run's packets are pieces: 0 to 8 for a send
 * wake, 0 for every other call. */
typedef struct {
    uint64_t number;
    uint64_t run;
    uint64_t wake;
    uint64_t pieces;
} socketlemon_answer;

/* The refusals, by the trade words of docs/PROTOCOL.md, which says when each is answered; how many there are.
 * No call of this header answers NO_CUTS: it is for the program `cuts`. */
#define SOCKETLEMON_BAD_FRAME 1
#define SOCKETLEMON_SHORT_OUTPUT 2
#define SOCKETLEMON_BAD_RULES 3
#define SOCKETLEMON_CLOSED_TOPIC 4
#define SOCKETLEMON_ALREADY_WHOLE 5
#define SOCKETLEMON_TOO_LONG 6
#define SOCKETLEMON_NO_RECORD 7
#define SOCKETLEMON_UNKNOWN_ID 8
#define SOCKETLEMON_PAST_END 9
#define SOCKETLEMON_HIGH_INDEX 10
#define SOCKETLEMON_SHORT_PIECE 11
#define SOCKETLEMON_NO_CELL 12
#define SOCKETLEMON_COUNT 13
#define SOCKETLEMON_GAP 14
#define SOCKETLEMON_TOTAL 15
#define SOCKETLEMON_SUM 16
#define SOCKETLEMON_NO_KEY 17
#define SOCKETLEMON_WRONG_STATE 18
#define SOCKETLEMON_NO_SUCH_PIECE 19
#define SOCKETLEMON_NO_WORK 20
#define SOCKETLEMON_TOPIC_TOO_LARGE 21
#define SOCKETLEMON_ID_IN_USE 22
#define SOCKETLEMON_NONE_WHOLE 23
#define SOCKETLEMON_CLOCK 24
#define SOCKETLEMON_UNSOUND_STORE 25
#define SOCKETLEMON_BAD_CALENDAR 26
#define SOCKETLEMON_SHORT_FRAME 27
#define SOCKETLEMON_SOURCE_FULL 28
#define SOCKETLEMON_BAD_LENGTHS 29
#define SOCKETLEMON_NO_CUTS 30
#define SOCKETLEMON_NO_PLAN 31
#define SOCKETLEMON_REFUSALS 31

/* The bytes of a store with `cells` cells, 1 to 45. */
#define SOCKETLEMON_STORE_BYTES(cells) (16 + 8 * 328 + 1380 * (size_t)(cells))

/* The most cells of a receive store that the messages of one source hold. */
#define SOCKETLEMON_SOURCE_CELLS 30

#define SOCKETLEMON_RECEIVE 1
#define SOCKETLEMON_SEND 2

/* The most bytes of a frame, and those of the run, report and address buffers that are always enough; take's data buffer
 * needs 328 more than the message has. */
#define SOCKETLEMON_FRAME 1400
#define SOCKETLEMON_PACKET_RUN 86
#define SOCKETLEMON_PUSH_RUN 310
#define SOCKETLEMON_WAKE_RUN 10960
#define SOCKETLEMON_TAKE_RUN 46
#define SOCKETLEMON_TAKE_DATA (328 + 32500)
#define SOCKETLEMON_REPORT 44
#define SOCKETLEMON_ADDRESS 16

/* The most pieces that a wake sends. */
#define SOCKETLEMON_WAKE_PIECES 8

/* The bytes of a calendar with so many closed dates, 0 to 32. */
#define SOCKETLEMON_CALENDAR(dates) (31 + 4 * (size_t)(dates))

/* The bytes of a key of the keyed hash, and the most that keyed hash and key derivation put out. */
#define SOCKETLEMON_SUM_KEY 32
#define SOCKETLEMON_LONGEST_SUM 65536

/* The least bytes of a plan's buffer: room for the sizes of SOCKETLEMON_SOURCE_CELLS pieces, 2 bytes each. */
#define SOCKETLEMON_PLAN (2 * SOCKETLEMON_SOURCE_CELLS)

/* Makes a store fresh, in a role. */
socketlemon_answer socketlemon_setup(uint8_t *store, size_t store_len, uint64_t role);

/* Writes the address of a public key of 32 bytes. */
socketlemon_answer socketlemon_address(const uint8_t *key, size_t key_len, uint8_t *out, size_t out_len);

/* Handles a packet that came in from `from` (16 bytes) to `to` (16 bytes); `known` says whether the key of the source in
 * the id's record is known. `frame` has the bytes received and no others, 1 to SOCKETLEMON_FRAME of them. A packet needs 12,
 * an init 21 and its topic, a chunk 36 and as many as its size field says, a done 52; an acknowledgement needs 12, of a chunk
 * 36. Where fewer came it is a short frame; what came behind them is not read.
 * An init equal in source, destination, length, topic and reply flag to the arriving message of
 * its id is acknowledged and changes nothing; any other starts the message again.
 * A piece that needs a new cell is refused (source full) where its message's source holds SOCKETLEMON_SOURCE_CELLS, counted
 * over the messages that arrive and those that are whole, whoever sends the piece. */
socketlemon_answer socketlemon_packet(uint8_t *recv, size_t recv_len, uint8_t *send, size_t send_len, const uint8_t *frame, size_t frame_len,
                                      const uint8_t *from, const uint8_t *to, const uint8_t *rules, size_t rules_len, uint64_t known, uint8_t *run,
                                      size_t run_len);

/* Takes a message to be sent, with an id of 8 bytes; times are in milliseconds. */
socketlemon_answer socketlemon_push(uint8_t *send, size_t send_len, const uint8_t *id, uint64_t reply, const uint8_t *from, const uint8_t *to,
                                    const uint8_t *topic, size_t topic_len, const uint8_t *data, size_t data_len, uint64_t created,
                                    uint64_t try_ms, uint8_t *run, size_t run_len);

/* Wakes a message: kind 1 sends what wants sending, if the calendar is open at `unix_ms`, and else does nothing; kind 2 lets
 * the deadline pass, and reads no calendar. A piece is sent again when `clock` says that it is due; hours go by `unix_ms` alone,
 * milliseconds since 1970 in UTC. At most eight pieces are sent: those never sent yet by index, then due ones, those sent
 * longest ago first and equal ones by index. Call again for the others, best when acknowledgements have come.
 * A calendar is for each weekday from Monday on its opening and its closing minute (2 bytes each; 0 to 1,440, the closing one
 * not included; two zeros: closed all day), the offset of local time from UTC in minutes, plus 720 (2; 0 to 1,560), the number
 * of closed dates (1; 0 to 32), and for each its year (2; 1970 to 9999), month (1) and day (1). Numbers are big-endian. */
socketlemon_answer socketlemon_wake(uint8_t *send, size_t send_len, uint64_t kind, const uint8_t *id, uint64_t clock, const uint8_t *calendar,
                                    size_t calendar_len, uint64_t unix_ms, uint8_t *run, size_t run_len);

/* Says how far a message is. */
socketlemon_answer socketlemon_report(const uint8_t *send, size_t send_len, const uint8_t *id, uint8_t *out, size_t out_len);

/* Hands out the oldest whole message: its record of 328 bytes and its data, and its read packet. */
socketlemon_answer socketlemon_take(uint8_t *recv, size_t recv_len, uint8_t *data, size_t data_len, uint8_t *run, size_t run_len);

/* Fills all of `out` with BLAKE3's keyed hash of the input, which may have any number of bytes. A shorter
 * output is the beginning of a longer one. A key that is not SOCKETLEMON_SUM_KEY bytes long, or an output of
 * more than SOCKETLEMON_LONGEST_SUM, is refused (bad lengths) before any byte is read. Packets carry the
 * plain sum, and not this one. */
socketlemon_answer socketlemon_keyed_hash(const uint8_t *key, size_t key_len, const uint8_t *input,
                                          size_t input_len, uint8_t *out, size_t out_len);

/* Fills all of `out` with what BLAKE3's key derivation gives for a context, which says what the key is for,
 * and the key material; both may be any bytes. An output of more than SOCKETLEMON_LONGEST_SUM is refused (bad
 * lengths) before any byte is read. */
socketlemon_answer socketlemon_derive_key(const uint8_t *context, size_t context_len, const uint8_t *material,
                                          size_t material_len, uint8_t *out, size_t out_len);

/* Plans a message of `length` bytes, to 32,500, in so many pieces: sizes of 0 to 1,364 bytes that a fresh
 * receiver of 45 cells, topic open and source's key known, keeps at the indexes from 0 on, each from where the
 * one before it ends, and then finishes by a done with that number as count. Of all such lists it is the one
 * with the greatest first size, of these the one with the greatest second, and so on. The sizes, 2 bytes each,
 * big-endian, go to the start of `out`, which has at least SOCKETLEMON_PLAN bytes; the answer's `run` says how
 * many bytes they take, and those behind them stay. Where there is no such list, or the message is longer, it
 * is refused (no plan). */
socketlemon_answer socketlemon_plan(uint64_t length, uint64_t pieces, uint8_t *out, size_t out_len);

#ifdef __cplusplus
}
#endif

#endif

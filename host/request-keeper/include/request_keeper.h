/* The request keeper's ten entries for a host in C. Every byte and number is in docs/LAYOUT.md.
 *
 * Link librequest_keeper.a, which `rt lib` in crates/request_keeper_c writes as out/librequest_keeper_c.a. It wants memcpy, memset
 * and __udivti3, which every C compiler links (libc and libgcc, or compiler-rt), and nothing else.
 *
 * A list is a pointer and then its length in bytes. Any number and any bytes are answered. Of its pointers a caller
 * owes what C can't say otherwise: none is null, also where the length is 0; all the bytes of its length are there; the
 * areas that a call writes overlap nothing else that it is given; and nobody else writes to any of them meanwhile.
 * A step or a forecast uses up to 350 KiB of stack.
 */
#ifndef REQUEST_KEEPER_H
#define REQUEST_KEEPER_H

#include <stddef.h>
#include <stdint.h>

#ifdef __cplusplus
extern "C" {
#endif

/* Length of the state area, and least length of the command area. */
#define REQUEST_KEEPER_STATE_BYTES 65536
#define REQUEST_KEEPER_COMMAND_BYTES 65536

/* Length of a map of the window. */
#define REQUEST_KEEPER_MAP_BYTES 512

/* Step kinds. */
enum request_keeper_kind {
    REQUEST_KEEPER_START = 1,
    REQUEST_KEEPER_PICK = 2,
    REQUEST_KEEPER_NEEDED_MODIFIER = 3,
    REQUEST_KEEPER_REORG = 4,
    REQUEST_KEEPER_ANNOUNCED = 5,
    REQUEST_KEEPER_SYNC_INFO = 6,
    REQUEST_KEEPER_OTHER_MESSAGE = 7,
    REQUEST_KEEPER_LOST_PEER = 8,
    REQUEST_KEEPER_RECEIVED = 9,
    REQUEST_KEEPER_EVICTED = 10,
    REQUEST_KEEPER_PROGRESS = 11,
    REQUEST_KEEPER_CHECK = 12,
    REQUEST_KEEPER_SCHEDULED_TICK = 13,
    REQUEST_KEEPER_SECTION_TICK = 14,
    REQUEST_KEEPER_SEND_FAILURE = 15,
    REQUEST_KEEPER_END_OF_STREAM = 16
};

/* Outcomes of a finished step. */
enum request_keeper_outcome {
    REQUEST_KEEPER_CONTINUE = 0,
    REQUEST_KEEPER_SYNCED = 1,
    REQUEST_KEEPER_BEHIND_PEER = 2,
    REQUEST_KEEPER_SYNC_PEER_GONE = 3,
    REQUEST_KEEPER_STALLED = 4,
    REQUEST_KEEPER_STREAM_ENDED = 5
};

/* A step's answer. number: 0, or the refusal, with all else 0 and both areas untouched. */
struct request_keeper_answer {
    uint32_t number;
    uint32_t outcome;
    uint32_t retried;   /* retried to forgotten: in a check, else 0 */
    uint32_t fresh;
    uint32_t abandoned;
    uint32_t forgotten;
    uint32_t pending;   /* after the step */
    uint32_t evicted;   /* after the step */
    uint32_t length;    /* bytes of commands from the start of the command area */
};

/* A forecast: what the step would answer, lent 65,536 command bytes. number: 0, or the refusal, with all else 0. */
struct request_keeper_foretold {
    uint32_t number;
    uint32_t outcome;
    uint32_t pending;   /* after the step */
    uint32_t evicted;   /* after the step */
    uint32_t commands;  /* how many commands */
    uint32_t length;    /* their bytes */
};

/* A mean age, exactly: the sum of all pending ages in milliseconds is quotient * count + remainder, and remainder is below count
 * unless count is 0. number: 0, or the refusal, with all else 0. */
struct request_keeper_mean {
    uint32_t number;
    uint32_t count;     /* how many are pending */
    uint64_t quotient;
    uint64_t remainder;
};

/* A question's answer: its number, and the bytes of pairs from the start of the command area. */
struct request_keeper_pairs {
    uint32_t number;
    uint32_t length;
};

/* A map's answer: its number, and how many heights after the downloaded one can be passed. */
struct request_keeper_passable {
    uint32_t number;
    uint32_t heights;   /* 0 to 192 */
};

/* Writes the opened image. Answers 0, or 1 if the area is not 65,536 bytes long. Settings and clock in milliseconds. */
uint32_t request_keeper_open(
    uint8_t *state, size_t state_length,
    uint32_t timeout,
    uint32_t checks,     /* max_checks */
    uint32_t interval,   /* min_sync_send_interval */
    uint32_t stall,      /* stall_timeout */
    uint64_t clock,
    uint32_t height);    /* start height: becomes the downloaded height */

/* Runs a step. */
struct request_keeper_answer request_keeper_step(
    uint8_t *state, size_t state_length,
    uint8_t *commands, size_t commands_length,
    uint8_t kind,
    uint64_t clock,
    uint8_t gate,        /* 1: modifiers may be requested */
    uint32_t height,     /* chain height */
    uint64_t peer,       /* the sender of a message, or the peer that was lost */
    uint16_t typeid_,    /* modifier type of the ids */
    uint32_t fork,       /* fork point of a reorg */
    uint8_t parsed,      /* 1: the sync info could be parsed */
    uint8_t hastip,      /* 1: it has a tip */
    uint32_t tip,
    const uint8_t *ids, size_t ids_length,
    const uint8_t *continuation, size_t continuation_length,
    const uint8_t *stored, size_t stored_length,
    const uint8_t *peers, size_t peers_length,
    const uint8_t *view, size_t view_length);

/* What a step would answer, given all of its arguments but the command area. Nothing is written, and 3 is no answer. */
struct request_keeper_foretold request_keeper_forecast(
    const uint8_t *state, size_t state_length,
    uint8_t kind,
    uint64_t clock,
    uint8_t gate,
    uint32_t height,
    uint64_t peer,
    uint16_t typeid_,
    uint32_t fork,
    uint8_t parsed,
    uint8_t hastip,
    uint32_t tip,
    const uint8_t *ids, size_t ids_length,
    const uint8_t *continuation, size_t continuation_length,
    const uint8_t *stored, size_t stored_length,
    const uint8_t *peers, size_t peers_length,
    const uint8_t *view, size_t view_length);

/* The mean age of what is pending at a clock: the time since each was last asked for. Nothing is written. Answers 0, 1, 2 or 4. */
struct request_keeper_mean request_keeper_mean_age(
    const uint8_t *state, size_t state_length,
    uint64_t clock);

/* Writes the stored pairs that the next check (flag 0) or lost peer (flag 1) may read to the command area. */
struct request_keeper_pairs request_keeper_question(
    const uint8_t *state, size_t state_length,
    uint8_t *commands, size_t commands_length,
    uint8_t flag);

/* The map of the window: which sections of the 192 heights after the downloaded height are stored. Each call answers 0, or
 * with the map untouched 12, then 8, then 9. Steps neither read nor write it.
 *
 * Fills a map whole, on any bytes: a view with a row for each of its heights up to the chain height, also behind an absent
 * header. After a reorg, and once a header of the window or the chain height has changed. */
uint32_t request_keeper_map_fill(
    uint8_t *map, size_t map_length,
    uint32_t downloaded,
    uint32_t chain,      /* chain height */
    const uint8_t *view, size_t view_length);

/* A section has come into the store. */
uint32_t request_keeper_map_arrived(
    uint8_t *map, size_t map_length,
    uint32_t height,
    uint8_t place);      /* 0 to 2, as in a row of a view */

/* The store prunes a section. */
uint32_t request_keeper_map_pruned(
    uint8_t *map, size_t map_length,
    uint32_t height,
    uint8_t place);

/* The downloaded height has risen: a view with a row for each height, up to the chain height that the map was filled with,
 * that the window did not reach before. */
uint32_t request_keeper_map_slide(
    uint8_t *map, size_t map_length,
    uint32_t downloaded,
    const uint8_t *view, size_t view_length);

/* How many heights can be passed: the run of complete heights at the window's low end. */
struct request_keeper_passable request_keeper_map_passable(const uint8_t *map, size_t map_length);

#ifdef __cplusplus
}
#endif

#endif

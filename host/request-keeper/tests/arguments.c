/* The calls of arguments.rs in C. What a step does not read has values of its own here, so that an argument in a wrong
 * place shows. Prints the transcript that the test compares. */
#include "request_keeper.h"

#include <inttypes.h>
#include <stdio.h>
#include <string.h>

#define BASE UINT64_C(0x0102030405060000)
#define SENDER UINT64_C(0x1122334455667788)
#define SEVEN UINT64_C(0x0700000000000007)
#define EIGHT UINT64_C(0x0800000000000008)

/* Bytes of a view's row, and of one of its three places: type, id, stored. */
#define PLACE (2 + 32 + 1)
#define ROW (1 + 3 * PLACE)

static uint8_t state[REQUEST_KEEPER_STATE_BYTES];
static uint8_t commands[REQUEST_KEEPER_COMMAND_BYTES];

struct list {
    uint8_t bytes[512];
    size_t length;
};

static void add(struct list *list, uint8_t byte, size_t times) {
    memset(list->bytes + list->length, byte, times);
    list->length += times;
}

/* Ids first, first + 1, .. */
static struct list ids(uint8_t first, uint8_t count) {
    struct list list = {.length = 0};
    for (uint8_t index = 0; index < count; index++) {
        add(&list, first + index, 32);
    }
    return list;
}

static void add_type(struct list *list, uint16_t type) {
    add(list, (uint8_t)(type >> 8), 1);
    add(list, (uint8_t)type, 1);
}

static struct list pair(uint16_t type, uint8_t id) {
    struct list list = {.length = 0};
    add_type(&list, type);
    add(&list, id, 32);
    return list;
}

/* One id as three types. */
static struct list pairs(uint16_t first, uint16_t second, uint16_t third, uint8_t id) {
    struct list list = {.length = 0};
    uint16_t types[3] = {first, second, third};
    for (int index = 0; index < 3; index++) {
        add_type(&list, types[index]);
        add(&list, id, 32);
    }
    return list;
}

static struct list peers(uint64_t first, uint64_t second) {
    struct list list = {.length = 0};
    uint64_t both[2] = {first, second};
    for (int index = 0; index < 2 && both[index] != 0; index++) {
        for (int shift = 56; shift >= 0; shift -= 8) {
            add(&list, (uint8_t)(both[index] >> shift), 1);
        }
    }
    return list;
}

static struct list view(uint8_t first) {
    struct list list = {.length = 0};
    add(&list, 0, 3);
    add(&list, first, 1);
    return list;
}

/* A row of one section. */
static void row(struct list *view, uint16_t type, uint8_t id, uint8_t stored) {
    add(view, 1, 1);
    add_type(view, type);
    add(view, id, 32);
    add(view, stored, 1);
    add(view, 0, ROW - 1 - PLACE);
}

static void hex(size_t length) {
    for (size_t index = 0; index < length; index++) {
        printf("%02x", commands[index]);
    }
    printf("\n");
}

static uint64_t hash(const uint8_t *bytes, size_t length) {
    uint64_t hash = UINT64_C(0xcbf29ce484222325);
    for (size_t index = 0; index < length; index++) {
        hash = (hash ^ bytes[index]) * UINT64_C(0x100000001b3);
    }
    return hash;
}

static void print_state(void) {
    printf("state %016" PRIx64 "\n", hash(state, sizeof state));
}

struct call {
    uint8_t kind;
    uint64_t after;
    uint8_t gate;
    uint32_t height;
    uint64_t peer;
    uint16_t type;
    uint32_t fork;
    uint8_t parsed;
    uint8_t hastip;
    uint32_t tip;
    struct list ids, continuation, stored, peers, view;
};

static void forecast(struct call c) {
    struct request_keeper_foretold f = request_keeper_forecast(
        state, sizeof state, c.kind, BASE + c.after, c.gate, c.height, c.peer, c.type, c.fork, c.parsed, c.hastip, c.tip,
        c.ids.bytes, c.ids.length, c.continuation.bytes, c.continuation.length, c.stored.bytes, c.stored.length,
        c.peers.bytes, c.peers.length, c.view.bytes, c.view.length);
    printf("forecast [%" PRIu32 ", %" PRIu32 ", %" PRIu32 ", %" PRIu32 ", %" PRIu32 ", %" PRIu32 "]\n",
           f.number, f.outcome, f.pending, f.evicted, f.commands, f.length);
    print_state();
}

static void mean_age(uint64_t after) {
    struct request_keeper_mean mean = request_keeper_mean_age(state, sizeof state, BASE + after);
    printf("mean [%" PRIu32 ", %" PRIu32 ", %" PRIu64 ", %" PRIu64 "]\n",
           mean.number, mean.count, mean.quotient, mean.remainder);
}

static void step(struct call c) {
    mean_age(c.after);
    forecast(c);
    struct request_keeper_answer a = request_keeper_step(
        state, sizeof state, commands, sizeof commands, c.kind, BASE + c.after, c.gate, c.height, c.peer, c.type, c.fork,
        c.parsed, c.hastip, c.tip, c.ids.bytes, c.ids.length, c.continuation.bytes, c.continuation.length,
        c.stored.bytes, c.stored.length, c.peers.bytes, c.peers.length, c.view.bytes, c.view.length);
    printf("[%" PRIu32 ", %" PRIu32 ", %" PRIu32 ", %" PRIu32 ", %" PRIu32 ", %" PRIu32 ", %" PRIu32 ", %" PRIu32
           ", %" PRIu32 "]\n",
           a.number, a.outcome, a.retried, a.fresh, a.abandoned, a.forgotten, a.pending, a.evicted, a.length);
    hex(a.length);
    print_state();
}

static void question(uint8_t flag) {
    struct request_keeper_pairs answer =
        request_keeper_question(state, sizeof state, commands, sizeof commands, flag);
    printf("[%" PRIu32 ", %" PRIu32 "]\n", answer.number, answer.length);
    hex(answer.length);
}

/* A call in which nothing is zero that need not be. */
static struct call at(uint8_t kind, uint64_t after) {
    struct call call = {.kind = kind,
                        .after = after,
                        .gate = 1,
                        .height = 1,
                        .peer = UINT64_C(0x0900000000000009),
                        .type = 0x4d02,
                        .fork = 2,
                        .tip = 3,
                        .ids = ids(0x21, 1),
                        .continuation = ids(0x22, 2),
                        .stored = pair(0x6302, 0x23),
                        .peers = peers(UINT64_C(0x0a0000000000000a), UINT64_C(0x0b0000000000000b)),
                        .view = view(200)};
    return call;
}

static struct call announced(uint64_t after, uint16_t type, uint8_t first, uint8_t count) {
    struct call call = at(REQUEST_KEEPER_ANNOUNCED, after);
    call.peer = SENDER;
    call.type = type;
    call.ids = ids(first, count);
    return call;
}

static struct call sync_info(uint64_t after, uint8_t parsed, uint8_t hastip, uint32_t tip, struct list continuation) {
    struct call call = at(REQUEST_KEEPER_SYNC_INFO, after);
    call.height = 50;
    call.peer = SENDER;
    call.parsed = parsed;
    call.hastip = hastip;
    call.tip = tip;
    call.continuation = continuation;
    return call;
}

static void entry(void) {
    struct call call = at(REQUEST_KEEPER_START, 1);
    call.height = 11;
    call.view = view(10);
    row(&call.view, 102, 0x10, 1);
    row(&call.view, 102, 0x11, 0);
    step(call);
    call = at(REQUEST_KEEPER_PICK, 1000);
    call.peers = peers(SEVEN, EIGHT);
    step(call);
}

static void messages(void) {
    struct call call = announced(2000, 102, 0xa1, 5);
    call.stored = pair(102, 0xa5);
    step(call);
    call = announced(2001, 102, 0xb1, 1);
    call.gate = 0;
    step(call);
    step(sync_info(3000, 1, 1, 40, ids(0xc1, 2)));
    step(sync_info(4000, 1, 0, 41, ids(0xc3, 1)));
    step(sync_info(5000, 0, 1, 42, ids(0xc4, 1)));
}

static void checks(void) {
    struct call call = at(REQUEST_KEEPER_CHECK, 12000);
    call.height = 10;
    call.peers = peers(SEVEN, 0);
    step(call);
    step(announced(12000, 101, 0x61, 3));
    step(announced(12000, 2, 0x71, 2));
    call = at(REQUEST_KEEPER_EVICTED, 13000);
    call.ids = ids(0xe1, 5);
    step(call);
    step(announced(21999, 108, 0x81, 1));
    question(0);
    question(1);
    call = at(REQUEST_KEEPER_CHECK, 22000);
    call.height = 10;
    call.stored = pair(101, 0xe5);
    call.peers = peers(EIGHT, 0);
    step(call);
}

static void reorg(void) {
    struct call call = at(REQUEST_KEEPER_REORG, 23000);
    call.height = 5;
    call.fork = 3;
    call.peers = peers(EIGHT, SEVEN);
    call.view = view(4);
    row(&call.view, 108, 0x44, 1);
    row(&call.view, 0x6c66, 0x55, 0);
    step(call);
    call = at(REQUEST_KEEPER_RECEIVED, 24000);
    call.height = 5;
    call.ids = ids(0x55, 1);
    call.view = view(5);
    row(&call.view, 0x6c66, 0x55, 1);
    step(call);
    call = at(REQUEST_KEEPER_NEEDED_MODIFIER, 25000);
    call.type = 0x6865;
    call.ids = ids(0x91, 1);
    step(call);
    question(1);
    call = at(REQUEST_KEEPER_LOST_PEER, 26000);
    call.stored = pairs(0x65, 0x68, 0x6568, 0x91);
    call.peer = SEVEN;
    call.peers = peers(EIGHT, 0);
    step(call);
}

static void ends(void) {
    struct call call = at(REQUEST_KEEPER_PICK, 27000);
    call.peers = peers(EIGHT, 0);
    step(call);
    step(at(REQUEST_KEEPER_SCHEDULED_TICK, 90000));
    step(at(REQUEST_KEEPER_CHECK, 90000));
    call = at(REQUEST_KEEPER_END_OF_STREAM, 89999);
    step(call);
    step(at(REQUEST_KEEPER_END_OF_STREAM, 90000));
}

#define DOWNLOADED UINT32_C(0x01020304)
#define CHAIN_HEIGHT (DOWNLOADED + 194)

static uint8_t map[REQUEST_KEEPER_MAP_BYTES];

/* A view of up to 192 rows. */
static uint8_t rows[4 + 192 * ROW];
static size_t rows_length;

static void rows_from(uint32_t first) {
    for (int index = 0; index < 4; index++) {
        rows[index] = (uint8_t)(first >> (24 - 8 * index));
    }
    rows_length = 4;
}

/* 255, or so many sections and a bit for each place that is stored. */
static void add_row(uint8_t count, uint8_t stored) {
    uint8_t *row = rows + rows_length;
    memset(row, 0, ROW);
    row[0] = count;
    for (int place = 0; count <= 3 && place < count; place++) {
        uint8_t *bytes = row + 1 + PLACE * place;
        memset(bytes, 102, PLACE - 1);
        bytes[PLACE - 1] = stored >> place & 1;
    }
    rows_length += ROW;
}

static void window(void) {
    rows_from(DOWNLOADED + 1);
    for (int index = 0; index < 192; index++) {
        add_row(index % 4, index == 5 ? 0 : 7);
    }
}

static void print_map(uint32_t number) {
    printf("[%" PRIu32 "]\nmap %016" PRIx64 "\n", number, hash(map, sizeof map));
}

static void passable(size_t length) {
    struct request_keeper_passable answer = request_keeper_map_passable(map, length);
    printf("[%" PRIu32 ", %" PRIu32 "]\n", answer.number, answer.heights);
}

static void arrived(uint32_t after, uint8_t place) {
    print_map(request_keeper_map_arrived(map, sizeof map, DOWNLOADED + after, place));
}

static void pruned(uint32_t after, uint8_t place) {
    print_map(request_keeper_map_pruned(map, sizeof map, DOWNLOADED + after, place));
}

static uint32_t fill(size_t map_length, size_t view_length) {
    return request_keeper_map_fill(map, map_length, DOWNLOADED, CHAIN_HEIGHT, rows, view_length);
}

static uint32_t slide(size_t map_length, uint32_t after, size_t view_length) {
    return request_keeper_map_slide(map, map_length, DOWNLOADED + after, rows, view_length);
}

static void map_changes(void) {
    window();
    print_map(fill(sizeof map, rows_length));
    passable(sizeof map);
    arrived(6, 0);
    passable(sizeof map);
    pruned(4, 2);
    passable(sizeof map);
    static const uint8_t lacking[3][2] = {{2, 1}, {0, 0}, {193, 0}};
    for (int index = 0; index < 3; index++) {
        arrived(lacking[index][0], lacking[index][1]);
        pruned(lacking[index][0], lacking[index][1]);
    }
}

static void map_slides(void) {
    rows_from(DOWNLOADED + 193);
    print_map(slide(sizeof map, 2, rows_length));
    add_row(2, 2);
    add_row(255, 0);
    print_map(slide(sizeof map, 2, rows_length));
    passable(sizeof map);
    print_map(slide(sizeof map, 1, rows_length));
}

static void map_lengths(void) {
    size_t less = sizeof map - 1;
    passable(less);
    window();
    size_t end = 4 + ROW;
    uint32_t first = fill(less, 3), second = slide(less, 2, 3);
    uint32_t third = fill(sizeof map, end - 1), fourth = slide(sizeof map, 2, end - 1);
    uint32_t fifth = fill(sizeof map, end);
    printf("[%" PRIu32 ", %" PRIu32 ", %" PRIu32 ", %" PRIu32 ", %" PRIu32 "]\n", first, second, third, fourth, fifth);
}

int main(void) {
    memset(state, 0xa5, sizeof state);
    memset(commands, 0xa5, sizeof commands);
    if (request_keeper_open(state, sizeof state - 1, 10000, 2, 200, 60000, BASE, 9) != 1 || state[0] != 0xa5) {
        return 1;
    }
    if (request_keeper_open(state, sizeof state, 10000, 2, 200, 60000, BASE, 9) != 0) {
        return 1;
    }
    print_state();
    entry();
    messages();
    checks();
    reorg();
    ends();
    memset(map, 0xa5, sizeof map);
    map_changes();
    map_slides();
    map_lengths();
    return 0;
}

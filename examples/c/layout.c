/* Holds the header's types to the compiled library: every field is written by the library and read here through the header, with values
   that no other field has. A field at another place, or of another width, shows. Prints what is not so. */
#include "vessel_ring.h"

#include <stdio.h>
#include <string.h>

static int wrong;

#define HOLDS(what)                                                  \
    do {                                                             \
        if (!(what)) {                                               \
            wrong++;                                                 \
            printf("layout.c:%d: not so: %s\n", __LINE__, #what);    \
        }                                                            \
    } while (0)

static struct vessel_record record_of(uint32_t batch)
{
    struct vessel_record record;
    memset(&record, 0, sizeof record);
    record.batch = batch;
    record.vessel = 0xA5;
    record.temperature = -3999;
    record.name_length = 32;
    memcpy(record.name, "abcdefghijklmnopqrstuvwxyz0123 ~", 32);
    return record;
}

/* A record's 40 bytes, as on a tape. */
static int is_record(const uint8_t *bytes, uint32_t batch)
{
    struct vessel_record record = record_of(batch);
    uint8_t form[VESSEL_RECORD_BYTES] = {0, 0, 0, 0, 0xA5, 0x61, 0xF0, 32};
    int i;
    for (i = 0; i < 4; i++)
        form[i] = (uint8_t)(batch >> 8 * i);
    memcpy(form + 8, record.name, 32);
    return memcmp(bytes, form, sizeof form) == 0;
}

static void ring_fields(void)
{
    static struct vessel_ring ring, fresh;
    struct vessel_delivery d;
    struct vessel_waiting w;
    struct vessel_hops h;
    int i;
    memset(&ring, 0xFF, sizeof ring);
    ring = vessel_ring_fresh();
    memset(&fresh, 0, sizeof fresh);
    HOLDS(memcmp(&ring, &fresh, sizeof ring) == 0);
    for (i = 0; i < VESSEL_NODES; i++)
        HOLDS(vessel_ring_add_node(&ring, (uint8_t)(i + 40)) == VESSEL_DONE && ring.capacity[i] == i + 40);
    for (i = 0; i < VESSEL_CHANNELS; i++) {
        HOLDS(vessel_ring_add_channel(&ring, (uint8_t)(i % 15 + 1), (uint8_t)(i % 13)) == VESSEL_DONE);
        HOLDS(ring.senders[i] == i % 15 + 1 && ring.receivers[i] == i % 13);
    }
    HOLDS(ring.node_count == 16 && ring.channel_count == 64 && ring.started == 0 && ring.spare == 0);
    HOLDS(vessel_ring_start(&ring) == VESSEL_DONE && ring.started == 1);
    for (i = 0; i < VESSEL_CHANNELS; i++) {
        HOLDS(vessel_ring_send(&ring, (uint8_t)i, record_of(0x01020304u + (uint32_t)i)) == VESSEL_DONE);
        HOLDS(ring.offered[i] == 1 && is_record(ring.offers[i], 0x01020304u + (uint32_t)i));
    }
    HOLDS(vessel_ring_receive(&ring, 63) == VESSEL_DONE && ring.phases[63] == VESSEL_ASKING);
    HOLDS(ring.receivers[63] == 11 && ring.waiting[11] == 1 && ring.lines[11][0] == 64);
    HOLDS(vessel_ring_withdraw(&ring, 63) == VESSEL_DONE && ring.phases[63] == VESSEL_RESTING && ring.offered[63] == 1);
    HOLDS(ring.waiting[11] == 0 && ring.lines[11][0] == 0 && vessel_ring_withdraw(&ring, 63) == VESSEL_NOT_ASKING);
    HOLDS(vessel_ring_receive(&ring, 63) == VESSEL_DONE && ring.lines[11][0] == 64);
    w = vessel_ring_waiting_set(&ring, 11);
    HOLDS(w.refusal == 0 && w.set == (uint64_t)1 << 63 && w.tasks == 1);
    HOLDS(vessel_ring_waiting_set(&ring, 16).refusal == VESSEL_NO_SUCH_NODE);
    h = vessel_ring_hops_left(&ring, 63); /* 11 to 4 on 16 nodes, and 4 to 11 */
    HOLDS(h.refusal == 0 && ring.senders[63] == 4 && h.hops == 16);
    HOLDS(vessel_ring_hops_left(&ring, 64).refusal == VESSEL_NO_SUCH_CHANNEL);
    HOLDS(vessel_ring_enter(&ring, 11) == VESSEL_DONE && ring.used[11] == 1 && ring.slots[11][0] == 64 && ring.waiting[11] == 0);
    HOLDS(vessel_ring_withdraw(&ring, 63) == VESSEL_REQUEST_IN_BUFFER);
    HOLDS(vessel_ring_receive(&ring, 12) == VESSEL_DONE && ring.receivers[12] == 12 && ring.marks[12] == 0);
    d = vessel_ring_move(&ring, 11);
    HOLDS(d.refusal == 0 && d.delivered == 0 && ring.marks[12] == 1 && ring.slots[12][0] == 64);
    for (i = 12; i != 3; i = (i + 1) % 16)
        HOLDS(vessel_ring_enter(&ring, (uint8_t)i) < 25 && vessel_ring_move(&ring, (uint8_t)i).refusal == VESSEL_DONE);
    d = vessel_ring_move(&ring, 3);
    HOLDS(d.refusal == 0 && d.delivered == 0 && ring.phases[63] == VESSEL_ANSWERING && ring.offered[63] == 0);
    HOLDS(is_record(ring.carried[63], 0x01020304u + 63) && ring.lines[4][0] == 64);
    HOLDS(vessel_ring_enter(&ring, 4) == VESSEL_DONE);
    for (i = 4; i < 10; i++)
        HOLDS(vessel_ring_move(&ring, (uint8_t)i).refusal == VESSEL_DONE);
    d = vessel_ring_move(&ring, 10);
    HOLDS(d.refusal == 0 && d.delivered == 1 && d.channel == 63 && d.record.batch == 0x01020304u + 63);
    HOLDS(d.record.vessel == 0xA5 && d.record.temperature == -3999 && d.record.name_length == 32);
    HOLDS(memcmp(d.record.name, record_of(1).name, 32) == 0 && ring.deliveries == 1 && ring.phases[63] == VESSEL_RESTING);
    HOLDS(vessel_ring_is_sound(&ring) == 1);
    ring.spare = 1;
    HOLDS(vessel_ring_is_sound(&ring) == 0);
}

/* Delivery i of the dispatcher's answer is the record that was sent on its channel. */
static int is_delivery(const struct vessel_dispatched *answer, int i)
{
    struct vessel_record record = record_of(0x01020304u + answer->channels[i]);
    return memcmp(&answer->records[i], &record, sizeof record) == 0;
}

/* 64 same-node channels on 16 nodes, their records sent and their requests in the buffers, where one slot is free. */
static struct vessel_ring packed_ring(void)
{
    struct vessel_ring ring = vessel_ring_fresh();
    int i;
    for (i = 0; i < VESSEL_NODES; i++)
        HOLDS(vessel_ring_add_node(&ring, i == 0 ? 5 : 4) == VESSEL_DONE);
    for (i = 0; i < VESSEL_CHANNELS; i++)
        HOLDS(vessel_ring_add_channel(&ring, (uint8_t)(i / 4), (uint8_t)(i / 4)) == VESSEL_DONE);
    HOLDS(vessel_ring_dispatch(&ring, 1).refusal == VESSEL_NOT_STARTED && vessel_ring_start(&ring) == VESSEL_DONE);
    for (i = 0; i < VESSEL_CHANNELS; i++) {
        HOLDS(vessel_ring_send(&ring, (uint8_t)i, record_of(0x01020304u + (uint32_t)i)) == VESSEL_DONE);
        HOLDS(vessel_ring_receive(&ring, (uint8_t)i) == VESSEL_DONE && vessel_ring_enter(&ring, (uint8_t)(i / 4)) == VESSEL_DONE);
    }
    return ring;
}

static void dispatched_fields(void)
{
    struct vessel_ring ring = packed_ring();
    struct vessel_dispatched d = vessel_ring_dispatch(&ring, 0x106);
    uint64_t met = 0;
    int i;
    HOLDS(d.refusal == 0 && d.rounds == 0x106 && d.count == 0 && d.channels[0] == 0 && d.records[0].batch == 0);
    d = vessel_ring_dispatch(&ring, 0xFFFF); /* 0x6C6 rounds in all, as tests/dispatch makes them singly */
    HOLDS(d.refusal == 0 && d.rounds == 0x6C6 - 0x106 && d.count == 64 && ring.deliveries == 64);
    for (i = 0; i < VESSEL_CHANNELS; i++) {
        HOLDS(d.channels[i] < 64 && is_delivery(&d, i));
        met |= (uint64_t)1 << d.channels[i] % 64;
    }
    HOLDS(met == UINT64_MAX);
    HOLDS(vessel_ring_send(&ring, 63, record_of(0x01020304u + 63)) == VESSEL_DONE && vessel_ring_receive(&ring, 63) == VESSEL_DONE);
    d = vessel_ring_dispatch(&ring, 0xFFFF);
    HOLDS(d.refusal == 0 && d.count == 1 && d.channels[0] == 63 && is_delivery(&d, 0));
    HOLDS(d.channels[1] == 0 && d.channels[63] == 0 && d.records[1].batch == 0 && d.records[63].batch == 0);
    ring.spare = 1;
    d = vessel_ring_dispatch(&ring, 3);
    HOLDS(d.refusal == VESSEL_UNSOUND_RING && d.rounds == 0 && d.count == 0 && d.channels[0] == 0 && d.records[0].batch == 0);
}

static void command_fields(void)
{
    static uint8_t tape[300];
    struct vessel_command command;
    struct vessel_writing writing;
    struct vessel_reading reading;
    memset(&command, 0, sizeof command);
    command.code = 0x11;
    command.first = 0x5A;
    command.second = 0xC3;
    writing = vessel_tape_write(tape, sizeof tape, 250, command);
    HOLDS(writing.refusal == 0 && writing.next == 253 && tape[250] == 0x11 && tape[251] == 0x5A && tape[252] == 0xC3);
    reading = vessel_tape_read(tape, sizeof tape, 250);
    HOLDS(reading.refusal == 0 && reading.end == 0 && reading.next == 253);
    HOLDS(reading.command.code == 0x11 && reading.command.first == 0x5A && reading.command.second == 0xC3);
    command.record = record_of(0xFEDCBA98u);
    for (command.code = 0x21; command.code <= 0x25; command.code += 4) {
        writing = vessel_tape_write(tape, sizeof tape, 258, command);
        HOLDS(writing.refusal == 0 && writing.next == 300 && tape[258] == command.code && tape[259] == 0x5A);
        HOLDS(is_record(tape + 260, 0xFEDCBA98u));
        reading = vessel_tape_read(tape, sizeof tape, 258);
        HOLDS(reading.next == 300 && reading.command.code == command.code);
        HOLDS(memcmp(&reading.command.record, &command.record, sizeof command.record) == 0);
    }
    command.code = 0x25;
    reading = vessel_tape_read(tape, sizeof tape, 300);
    HOLDS(reading.end == 1 && reading.refusal == 0 && reading.next == 0);
    HOLDS(vessel_tape_read(tape, sizeof tape, 301).refusal == VESSEL_PLACE_BEYOND_END);
    HOLDS(vessel_tape_write(tape, sizeof tape, 259, command).refusal == VESSEL_NO_ROOM_TO_WRITE);
    command.code = 0x13;
    HOLDS(vessel_tape_write(tape, sizeof tape, 0, command).refusal == VESSEL_UNKNOWN_COMMAND);
}

static void row_fields(void)
{
    static struct vessel_row table[VESSEL_HISTORY_ROWS], empty;
    struct vessel_record record = record_of(0xFEDCBA98u);
    struct vessel_figures f;
    struct vessel_row_batch b;
    int i;
    for (i = 0; i < VESSEL_READINGS; i++) {
        record.temperature = (int16_t)(i - 4000);
        HOLDS(vessel_history_note(table, VESSEL_HISTORY_ROWS, record) == VESSEL_DONE && table[0].batch == 0xFEDCBA98u);
        HOLDS(table[0].count == (uint32_t)i + 1 && table[0].readings[i] == i - 4000);
    }
    f = vessel_history_figures(table, VESSEL_HISTORY_ROWS, 0xFEDCBA98u);
    HOLDS(f.refusal == 0 && f.held == 1 && f.lowest == -4000 && f.highest == -3977 && f.sum == -95724);
    for (i = 1; i < VESSEL_HISTORY_ROWS; i++) {
        record.batch = 0x01020304u + (uint32_t)i;
        record.temperature = (int16_t)(11000 + i);
        HOLDS(vessel_history_note(table, VESSEL_HISTORY_ROWS, record) == VESSEL_DONE && table[i].batch == 0x01020304u + (uint32_t)i);
        HOLDS(table[i].count == 1 && table[i].readings[0] == 11000 + i && table[i].readings[1] == 0);
    }
    f = vessel_history_figures(table, VESSEL_HISTORY_ROWS, 0x01020304u + 127);
    HOLDS(f.refusal == 0 && f.held == 1 && f.lowest == 11127 && f.highest == 11127 && f.sum == 11127);
    b = vessel_history_batch(table, VESSEL_HISTORY_ROWS, 0);
    HOLDS(b.refusal == 0 && b.batch == 0xFEDCBA98u);
    b = vessel_history_batch(table, VESSEL_HISTORY_ROWS, VESSEL_HISTORY_ROWS - 1);
    HOLDS(b.refusal == 0 && b.batch == 0x01020304u + 127);
    b = vessel_history_batch(table, VESSEL_HISTORY_ROWS, VESSEL_HISTORY_ROWS);
    HOLDS(b.refusal == 0 && b.batch == 0);
    record.batch = 7;
    HOLDS(vessel_history_note(table, VESSEL_HISTORY_ROWS, record) == VESSEL_NO_EMPTY_ROW);
    HOLDS(vessel_history_close(table, VESSEL_HISTORY_ROWS, 0xFEDCBA98u) == VESSEL_DONE);
    HOLDS(memcmp(&table[0], &empty, sizeof empty) == 0 && table[1].count == 1);
    f = vessel_history_figures(table, VESSEL_HISTORY_ROWS, 0xFEDCBA98u);
    HOLDS(f.refusal == 0 && f.held == 0 && f.lowest == 0 && f.highest == 0 && f.sum == 0);
    b = vessel_history_batch(table, VESSEL_HISTORY_ROWS, 0);
    HOLDS(b.refusal == 0 && b.batch == 0);
    f = vessel_history_figures(table, VESSEL_HISTORY_ROWS - 1, 0xFEDCBA98u);
    HOLDS(f.refusal == VESSEL_UNSOUND_RING && f.held == 0);
    b = vessel_history_batch(table, VESSEL_HISTORY_ROWS - 1, 1);
    HOLDS(b.refusal == VESSEL_UNSOUND_RING && b.batch == 0);
}

int main(void)
{
    ring_fields();
    dispatched_fields();
    command_fields();
    row_fields();
    return wrong != 0;
}

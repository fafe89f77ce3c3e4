/* Temperatures in hundredths and in tenths: the two sends, the two commands on one tape, and a ring and a history that are held in tenths,
   from before, turned into hundredths. No call makes such a ring now, so one is made here by writing into a ring, which firmware never
   does. Prints what is not so. */
#include "vessel_ring.h"

#include <stdio.h>
#include <string.h>

static int wrong;

#define HOLDS(what)                                                      \
    do {                                                                 \
        if (!(what)) {                                                   \
            wrong++;                                                     \
            printf("hundredths.c:%d: not so: %s\n", __LINE__, #what);    \
        }                                                                \
    } while (0)

static struct vessel_record record_of(int16_t temperature)
{
    struct vessel_record record;
    memset(&record, 0, sizeof record);
    record.batch = 7;
    record.vessel = 3;
    record.temperature = temperature;
    record.name_length = 2;
    memcpy(record.name, "A1", 2);
    return record;
}

/* Two nodes and a channel from 1 to 0. */
static struct vessel_ring planned(void)
{
    struct vessel_ring ring = vessel_ring_fresh();
    HOLDS(vessel_ring_add_node(&ring, 1) == VESSEL_DONE && vessel_ring_add_node(&ring, 2) == VESSEL_DONE);
    HOLDS(vessel_ring_add_channel(&ring, 1, 0) == VESSEL_DONE);
    return ring;
}

static struct vessel_ring started(void)
{
    struct vessel_ring ring = planned();
    HOLDS(vessel_ring_start(&ring) == VESSEL_DONE);
    return ring;
}

/* The temperature of a record in the ring. */
static int held(const uint8_t *record)
{
    return (int16_t)(record[5] | record[6] << 8);
}

/* Writes the temperature of a record in the ring. */
static void put(uint8_t *record, int temperature)
{
    record[5] = (uint8_t)(temperature & 0xFF);
    record[6] = (uint8_t)(temperature >> 8 & 0xFF);
}

typedef uint8_t (*send_call)(struct vessel_ring *, uint8_t, struct vessel_record);

/* The record is sent on channel 0 and offered with so many hundredths, and with no other field changed. */
static int is_taken(send_call send, int16_t temperature, int hundredths)
{
    struct vessel_ring ring = started();
    if (send(&ring, 0, record_of(temperature)) != VESSEL_DONE || held(ring.offers[0]) != hundredths)
        return 0;
    return ring.offers[0][0] == 7 && ring.offers[0][4] == 3 && memcmp(ring.offers[0] + 7, "\2A1", 4) == 0;
}

/* The record is refused with this number, and every byte of the ring stays. */
static int is_refused(struct vessel_ring ring, send_call send, struct vessel_record record, uint8_t refusal)
{
    struct vessel_ring before = ring;
    return send(&ring, 0, record) == refusal && memcmp(&ring, &before, sizeof before) == 0;
}

static int is_out(send_call send, int16_t temperature)
{
    return is_refused(started(), send, record_of(temperature), VESSEL_TEMPERATURE_OUT_OF_RANGE);
}

/* Of a temperature that is out of range: 12 comes after 8 and 11, and before 13. */
static int is_in_order(send_call send, int16_t temperature)
{
    struct vessel_record record = record_of(temperature);
    struct vessel_record no_batch = record, long_name = record;
    no_batch.batch = 0;
    long_name.name_length = 33;
    return is_refused(planned(), send, record, VESSEL_NOT_STARTED) && is_refused(started(), send, no_batch, VESSEL_BATCH_NUMBER_ZERO)
           && is_refused(started(), send, long_name, VESSEL_TEMPERATURE_OUT_OF_RANGE);
}

static void sends(void)
{
    send_call tenths = vessel_ring_send_tenths, hundredths = vessel_ring_send;
    HOLDS(is_taken(tenths, 1200, 12000) && is_taken(tenths, -400, -4000) && is_taken(tenths, 612, 6120));
    HOLDS(is_out(tenths, 1201) && is_out(tenths, -401) && is_out(tenths, 3276) && is_out(tenths, 3277));
    HOLDS(is_out(tenths, 6554) && is_out(tenths, 32767) && is_out(tenths, -32768)); /* ten times as many would wrap into the range */
    HOLDS(is_taken(hundredths, 12000, 12000) && is_taken(hundredths, -4000, -4000) && is_taken(hundredths, 612, 612));
    HOLDS(is_taken(hundredths, 1201, 1201) && is_taken(hundredths, -401, -401));
    HOLDS(is_out(hundredths, 12001) && is_out(hundredths, -4001));
    HOLDS(is_in_order(tenths, 1201) && is_in_order(hundredths, 12001));
}

/* Two nodes, a channel, a record in tenths and one in hundredths carried from node 1 to node 0. */
static const uint8_t CALLS[][3] = {
    {0x10, 1, 0}, {0x10, 2, 0}, {0x11, 1, 0}, {0x12, 0, 0}, {0x21, 0, 0}, {0x20, 0, 0}, {0x22, 0, 0}, {0x23, 0, 0}, {0x25, 0, 0},
    {0x22, 1, 0}, {0x23, 1, 0}, {0x20, 0, 0}, {0x22, 0, 0}, {0x23, 0, 0}, {0x22, 1, 0}, {0x23, 1, 0},
};

static struct vessel_command command_of(const uint8_t *call)
{
    struct vessel_command command;
    memset(&command, 0, sizeof command);
    command.code = call[0];
    command.first = call[1];
    command.second = call[2];
    if (command.code == 0x21 || command.code == 0x25)
        command.record = record_of(command.code == 0x21 ? 612 : 6125);
    return command;
}

/* Written, read back and written again, both commands stay what they are; the listing has hundredths alone. */
static void taped(void)
{
    static const char *listing = "1 10 0\n2 10 0\n3 11 0\n4 12 0\n5 21 0\n6 20 0\n7 22 0\n8 23 0\n9 25 0\n10 22 0\n"
                                 "11 23 0 delivered 0 7 3 6120 2 A1\n12 20 0\n13 22 0\n14 23 0\n15 22 0\n"
                                 "16 23 0 delivered 0 7 3 6125 2 A1\nend 16 0\n";
    uint8_t tape[128], again[128], out[1024];
    size_t length = 0, place = 0, written, i;
    for (i = 0; i < sizeof CALLS / sizeof CALLS[0]; i++)
        length = vessel_tape_write(tape, sizeof tape, length, command_of(CALLS[i])).next;
    memset(again, 0, sizeof again);
    for (i = 0; i < sizeof CALLS / sizeof CALLS[0]; i++) {
        struct vessel_command command = command_of(CALLS[i]);
        struct vessel_reading reading = vessel_tape_read(tape, length, place);
        HOLDS(reading.refusal == VESSEL_DONE && memcmp(&reading.command.record, &command.record, sizeof command.record) == 0);
        HOLDS(reading.command.code == command.code && reading.command.first == command.first);
        HOLDS(vessel_tape_write(again, sizeof again, place, reading.command).next == reading.next);
        place = reading.next;
    }
    HOLDS(length == 112 && place == length && memcmp(tape, again, length) == 0);
    written = vessel_ring_list(tape, length, out, sizeof out);
    HOLDS(written == strlen(listing) && memcmp(out, listing, written) == 0);
}

/* A ring held in tenths: channel 0 carries a record and has a second one offered. */
static struct vessel_ring ring_in_tenths(int offered, int carried)
{
    struct vessel_ring ring = started();
    HOLDS(vessel_ring_send(&ring, 0, record_of(0)) == VESSEL_DONE && vessel_ring_receive(&ring, 0) == VESSEL_DONE);
    HOLDS(vessel_ring_enter(&ring, 0) == VESSEL_DONE && vessel_ring_move(&ring, 0).refusal == VESSEL_DONE);
    HOLDS(vessel_ring_send(&ring, 0, record_of(0)) == VESSEL_DONE && ring.phases[0] == VESSEL_ANSWERING);
    put(ring.offers[0], offered);
    put(ring.carried[0], carried);
    return ring;
}

/* The ring is refused, and stays as it is to the byte. */
static int is_not_turned(struct vessel_ring ring)
{
    struct vessel_ring before = ring;
    return vessel_ring_to_hundredths(&ring) == VESSEL_UNSOUND_RING && memcmp(&ring, &before, sizeof before) == 0;
}

static void turned_rings(void)
{
    struct vessel_ring ring = ring_in_tenths(613, 612), by_hand = ring;
    struct vessel_dispatched all;
    put(by_hand.offers[0], 6130);
    put(by_hand.carried[0], 6120);
    HOLDS(vessel_ring_to_hundredths(&ring) == VESSEL_DONE && memcmp(&ring, &by_hand, sizeof ring) == 0);
    all = vessel_ring_dispatch(&ring, 6);
    HOLDS(all.refusal == VESSEL_DONE && all.count == 1 && all.records[0].temperature == 6120 && all.records[0].batch == 7);
    HOLDS(vessel_ring_receive(&ring, 0) == VESSEL_DONE);
    HOLDS(vessel_ring_enter(&ring, 0) == VESSEL_DONE && vessel_ring_move(&ring, 0).refusal == VESSEL_DONE);
    HOLDS(vessel_ring_enter(&ring, 1) == VESSEL_DONE && vessel_ring_move(&ring, 1).record.temperature == 6130);

    HOLDS(is_not_turned(ring_in_tenths(1201, 612)) && is_not_turned(ring_in_tenths(612, -401)));
    HOLDS(is_not_turned(ring_in_tenths(3277, 612)) && is_not_turned(ring_in_tenths(612, 6554)));
    by_hand = ring_in_tenths(1201, 612);
    HOLDS(vessel_ring_is_sound(&by_hand) == 1); /* in hundredths */
    by_hand = ring_in_tenths(613, 612);
    by_hand.used[0] = 1;
    HOLDS(is_not_turned(by_hand));
    by_hand = started();
    put(by_hand.offers[0], -32768); /* where no record is, and ten times as many would wrap to 0 */
    HOLDS(is_not_turned(by_hand));

    ring = ring_in_tenths(120, -40); /* sound in tenths when it is turned: a second time is not noticed */
    HOLDS(vessel_ring_to_hundredths(&ring) == VESSEL_DONE && held(ring.offers[0]) == 1200);
    HOLDS(vessel_ring_to_hundredths(&ring) == VESSEL_DONE && held(ring.offers[0]) == 12000 && held(ring.carried[0]) == -4000);
    HOLDS(is_not_turned(ring));
}

/* The table is refused, and stays as it is to the byte. */
static int table_is_not_turned(const struct vessel_row *table, size_t rows)
{
    struct vessel_row copy[VESSEL_HISTORY_ROWS];
    memcpy(copy, table, sizeof copy);
    return vessel_history_to_hundredths(copy, rows) == VESSEL_UNSOUND_RING && memcmp(copy, table, sizeof copy) == 0;
}

static void turned_tables(void)
{
    struct vessel_row table[VESSEL_HISTORY_ROWS], by_hand[VESSEL_HISTORY_ROWS];
    struct vessel_row first = {7, 2, {-400, 5}}, last = {8, 1, {1200}};
    struct vessel_figures f;
    memset(table, 0, sizeof table);
    table[0] = first;
    table[VESSEL_HISTORY_ROWS - 1] = last;
    memcpy(by_hand, table, sizeof table);

    table[0].readings[1] = 1201;
    HOLDS(table_is_not_turned(table, VESSEL_HISTORY_ROWS));
    table[0].readings[1] = 6554;
    HOLDS(table_is_not_turned(table, VESSEL_HISTORY_ROWS));
    table[0] = first;
    table[0].readings[2] = -32768; /* behind the last reading */
    HOLDS(table_is_not_turned(table, VESSEL_HISTORY_ROWS));
    table[0] = first;
    HOLDS(table_is_not_turned(table, VESSEL_HISTORY_ROWS - 1));

    by_hand[0].readings[0] = -4000;
    by_hand[0].readings[1] = 50;
    by_hand[VESSEL_HISTORY_ROWS - 1].readings[0] = 12000;
    HOLDS(vessel_history_to_hundredths(table, VESSEL_HISTORY_ROWS) == VESSEL_DONE && memcmp(table, by_hand, sizeof table) == 0);
    f = vessel_history_figures(table, VESSEL_HISTORY_ROWS, 7);
    HOLDS(f.held == 1 && f.lowest == -4000 && f.highest == 50 && f.sum == -3950);
    HOLDS(vessel_history_note(table, VESSEL_HISTORY_ROWS, record_of(6125)) == VESSEL_DONE && table[0].readings[2] == 6125);
}

int main(void)
{
    sends();
    taped();
    turned_rings();
    turned_tables();
    return wrong != 0;
}

/* Names with a blank at an end. Send refuses them; but a ring that holds one, from before it did, is sound, delivers the record unchanged,
   and the history takes it. No call makes such a ring now, so one is made here by writing into a ring, which firmware never does. Prints
   what is not so. */
#include "vessel_ring.h"

#include <stdio.h>
#include <string.h>

static int wrong;

#define HOLDS(what)                                                      \
    do {                                                                 \
        if (!(what)) {                                                   \
            wrong++;                                                     \
            printf("blank_ends.c:%d: not so: %s\n", __LINE__, #what);    \
        }                                                                \
    } while (0)

/* A record with this name length and these first cells of the name, whether or not they fit. */
static struct vessel_record record_of(uint8_t name_length, const char *cells)
{
    struct vessel_record record;
    size_t length = strlen(cells);
    memset(&record, 0, sizeof record);
    record.batch = 7;
    record.vessel = 3;
    record.temperature = 6120;
    record.name_length = name_length;
    memcpy(record.name, cells, length < VESSEL_NAME ? length : VESSEL_NAME);
    return record;
}

static struct vessel_record named(const char *name)
{
    return record_of((uint8_t)strlen(name), name);
}

/* Two nodes and a channel from 1 to 0. */
static struct vessel_ring started(void)
{
    struct vessel_ring ring = vessel_ring_fresh();
    HOLDS(vessel_ring_add_node(&ring, 1) == VESSEL_DONE && vessel_ring_add_node(&ring, 2) == VESSEL_DONE);
    HOLDS(vessel_ring_add_channel(&ring, 1, 0) == VESSEL_DONE && vessel_ring_start(&ring) == VESSEL_DONE);
    return ring;
}

/* The record is refused with this number, and every byte of the ring stays. */
static int is_refused(struct vessel_ring *ring, struct vessel_record record, uint8_t refusal)
{
    struct vessel_ring before = *ring;
    return vessel_ring_send(ring, 0, record) == refusal && memcmp(ring, &before, sizeof before) == 0;
}

static int is_taken(struct vessel_record record)
{
    struct vessel_ring ring = started();
    return vessel_ring_send(&ring, 0, record) == VESSEL_DONE && memcmp(ring.offers[0] + 8, record.name, VESSEL_NAME) == 0;
}

static void sends(void)
{
    const char *long_name = "AAAAAAAAAAAAAAAAAAAAAAAAAAAAAAAA";
    const char *blank_last = "AAAAAAAAAAAAAAAAAAAAAAAAAAAAAAA ";
    struct vessel_ring ring = started();
    HOLDS(is_taken(named("")) && is_taken(named("A B")) && is_taken(named(long_name)));
    HOLDS(is_refused(&ring, named(" "), VESSEL_BLANK_END));
    HOLDS(is_refused(&ring, named("A "), VESSEL_BLANK_END));
    HOLDS(is_refused(&ring, named(" A"), VESSEL_BLANK_END));
    HOLDS(is_refused(&ring, named(blank_last), VESSEL_BLANK_END));
    HOLDS(is_refused(&ring, record_of(33, long_name), VESSEL_NAME_TOO_LONG));
    HOLDS(is_refused(&ring, named(" \x7F"), VESSEL_BAD_NAME));
    HOLDS(is_refused(&ring, record_of(1, "A "), VESSEL_BAD_NAME));
    HOLDS(vessel_ring_send(&ring, 0, named("A1")) == VESSEL_DONE);
    HOLDS(is_refused(&ring, named("A "), VESSEL_BLANK_END));
    HOLDS(is_refused(&ring, named("AB"), VESSEL_ALREADY_OFFERED));
}

/* "AB" in a record of the ring becomes "A ". */
static void put_blank_last(uint8_t *record)
{
    HOLDS(record[7] == 2 && record[8] == 'A' && record[9] == 'B');
    record[9] = ' ';
}

/* An entry and a move at each node in turn, until one delivers. */
static struct vessel_delivery delivered(struct vessel_ring *ring)
{
    struct vessel_delivery answer;
    int i;
    memset(&answer, 0, sizeof answer);
    for (i = 0; i < 8 && !answer.delivered; i++) {
        vessel_ring_enter(ring, (uint8_t)(i % 2));
        answer = vessel_ring_move(ring, (uint8_t)(i % 2));
        HOLDS(vessel_ring_is_sound(ring) == 1);
    }
    return answer;
}

/* A ring that holds "A ", asked for on channel 0: called singly and by the dispatcher it delivers that very record. */
static void runs_on(struct vessel_ring ring)
{
    static struct vessel_row history[VESSEL_HISTORY_ROWS];
    struct vessel_ring copy = ring;
    struct vessel_record record = named("A ");
    struct vessel_delivery single;
    struct vessel_dispatched all;
    HOLDS(vessel_ring_is_sound(&ring) == 1 && is_refused(&ring, record, VESSEL_BLANK_END));
    single = delivered(&ring);
    HOLDS(single.refusal == VESSEL_DONE && single.delivered == 1 && single.channel == 0);
    HOLDS(memcmp(&single.record, &record, sizeof record) == 0);
    all = vessel_ring_dispatch(&copy, 6);
    HOLDS(all.refusal == VESSEL_DONE && all.count == 1 && all.channels[0] == 0);
    HOLDS(memcmp(&all.records[0], &record, sizeof record) == 0);
    memset(history, 0, sizeof history);
    HOLDS(vessel_history_note(history, VESSEL_HISTORY_ROWS, single.record) == VESSEL_DONE);
    HOLDS(history[0].batch == 7 && history[0].count == 1 && history[0].readings[0] == 6120);
    HOLDS(ring.deliveries == 1 && is_refused(&ring, single.record, VESSEL_BLANK_END));
}

int main(void)
{
    struct vessel_ring ring = started();
    sends();
    HOLDS(vessel_ring_send(&ring, 0, named("AB")) == VESSEL_DONE && vessel_ring_receive(&ring, 0) == VESSEL_DONE);
    put_blank_last(ring.offers[0]);
    runs_on(ring);
    ring.offers[0][9] = 'B';
    HOLDS(vessel_ring_enter(&ring, 0) == VESSEL_DONE && vessel_ring_move(&ring, 0).refusal == VESSEL_DONE);
    HOLDS(ring.phases[0] == VESSEL_ANSWERING);
    put_blank_last(ring.carried[0]);
    runs_on(ring);
    return wrong != 0;
}

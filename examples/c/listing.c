/* The two-node ring of document 01, call by call: the plan, one record from node 1 to node 0, its temperature noted, and what a refusal, a
   damaged ring and a damaged history look like. Prints a line for each call, as the tape program does for each command. Then a second
   record goes the same way by the dispatcher. */
#include "vessel_ring.h"

#include <stdio.h>
#include <string.h>

static struct vessel_ring ring;
static struct vessel_row history[VESSEL_HISTORY_ROWS]; /* zeros: the empty one */
static unsigned calls, accepted, refused;

/* The line of a call: its number, its command byte, the refusal or 0. */
static void line(unsigned code, unsigned refusal)
{
    calls++;
    if (refusal == VESSEL_DONE)
        accepted++;
    else
        refused++;
    printf("%u %02x %u", calls, code, refusal);
}

static void plain(unsigned code, uint8_t refusal)
{
    line(code, refusal);
    printf("\n");
}

/* Notes a record in the history and says what is known of its batch then. */
static void note(struct vessel_record record)
{
    uint8_t refusal = vessel_history_note(history, VESSEL_HISTORY_ROWS, record);
    struct vessel_figures figures = vessel_history_figures(history, VESSEL_HISTORY_ROWS, record.batch);
    printf("  noted %u: batch %u lowest %d highest %d sum %d\n", refusal, record.batch, figures.lowest, figures.highest, figures.sum);
}

static void delivered(uint8_t channel, const struct vessel_record *record)
{
    printf(" delivered %u %u %u %d %u", channel, record->batch, record->vessel, record->temperature, record->name_length);
    if (record->name_length > 0)
        printf(" %.*s", record->name_length, (const char *)record->name);
}

static void moved(struct vessel_delivery answer)
{
    line(0x23, answer.refusal);
    if (answer.delivered)
        delivered(answer.channel, &answer.record);
    printf("\n");
    if (answer.delivered)
        note(answer.record);
}

/* A task that asks for a record while its last request is still under way is refused, and asks again later. */
static void ask(uint8_t channel)
{
    uint8_t refusal = vessel_ring_receive(&ring, channel);
    plain(0x20, refusal);
    if (refusal == VESSEL_NOT_RESTING) {
        struct vessel_hops left = vessel_ring_hops_left(&ring, channel);
        struct vessel_waiting waiting = vessel_ring_waiting_set(&ring, ring.receivers[channel]);
        printf("  under way: %u hops left, %u task waits, set %llx\n", left.hops, waiting.tasks, (unsigned long long)waiting.set);
    }
}

/* Entries and moves in one call: it runs the ring until nothing is on it, and hands over all that was delivered. c * (2 * n + 2) rounds are
   always enough; a controller that has other work to do gives fewer, and calls again later. */
static void dispatch(void)
{
    uint16_t enough = (uint16_t)(ring.channel_count * (2 * ring.node_count + 2));
    struct vessel_dispatched answer = vessel_ring_dispatch(&ring, enough);
    int i;
    printf("dispatched %u: %u of %u rounds, %u delivery\n", answer.refusal, answer.rounds, enough, answer.count);
    for (i = 0; i < answer.count; i++) {
        printf(" ");
        delivered(answer.channels[i], &answer.records[i]);
        printf("\n");
        note(answer.records[i]);
    }
}

/* One changed byte makes the ring unsound: every call refuses it and leaves it as it is. */
static void damaged(void)
{
    static struct vessel_ring copy, before;
    struct vessel_record none;
    memset(&none, 0, sizeof none);
    copy = ring;
    copy.used[0] = 1;
    before = copy;
    printf("a byte changed: sound %u, calls", vessel_ring_is_sound(&copy));
    printf(" %u", vessel_ring_add_node(&copy, 1));
    printf(" %u", vessel_ring_add_channel(&copy, 0, 0));
    printf(" %u", vessel_ring_start(&copy));
    printf(" %u", vessel_ring_receive(&copy, 0));
    printf(" %u", vessel_ring_send(&copy, 0, none));
    printf(" %u", vessel_ring_send_tenths(&copy, 0, none));
    printf(" %u", vessel_ring_enter(&copy, 0));
    printf(" %u", vessel_ring_move(&copy, 0).refusal);
    printf(" %u", vessel_ring_dispatch(&copy, 1).refusal);
    printf(" %u", vessel_ring_withdraw(&copy, 0));
    printf(" %u", vessel_ring_hops_left(&copy, 0).refusal);
    printf(" %u", vessel_ring_waiting_set(&copy, 0).refusal);
    printf(", the ring %s\n", memcmp(&copy, &before, sizeof copy) == 0 ? "as it was" : "CHANGED");
}

/* A reading in a row of no batch: every call refuses the table and leaves it as it is. */
static void damaged_history(void)
{
    static struct vessel_row copy[VESSEL_HISTORY_ROWS], before[VESSEL_HISTORY_ROWS];
    struct vessel_record none;
    memset(&none, 0, sizeof none);
    memcpy(copy, history, sizeof copy);
    copy[90].readings[0] = 5;
    memcpy(before, copy, sizeof before);
    printf("a reading of no batch: calls");
    printf(" %u", vessel_history_note(copy, VESSEL_HISTORY_ROWS, none));
    printf(" %u", vessel_history_close(copy, VESSEL_HISTORY_ROWS, 7));
    printf(" %u", vessel_history_figures(copy, VESSEL_HISTORY_ROWS, 7).refusal);
    printf(", the history %s\n", memcmp(copy, before, sizeof copy) == 0 ? "as it was" : "CHANGED");
}

/* The same calls as a tape: written, read back and run. */
static void taped(void)
{
    static const uint8_t plan[][3] = {{0x10, 1, 0}, {0x10, 2, 0}, {0x11, 1, 0}, {0x12, 0, 0}, {0x20, 0, 0}};
    uint8_t tape[16];
    uint8_t out[512];
    size_t length = 0;
    size_t place = 0;
    struct vessel_reading reading;
    size_t i;
    for (i = 0; i < sizeof plan / sizeof plan[0]; i++) {
        struct vessel_command command;
        memset(&command, 0, sizeof command);
        command.code = plan[i][0];
        command.first = plan[i][1];
        command.second = plan[i][2];
        length = vessel_tape_write(tape, sizeof tape, length, command).next;
    }
    printf("a tape of %zu bytes:", length);
    for (reading = vessel_tape_read(tape, length, place); !reading.end && reading.refusal == 0;
         reading = vessel_tape_read(tape, length, place)) {
        printf(" %02x(%u, %u)", reading.command.code, reading.command.first, reading.command.second);
        place = reading.next;
    }
    printf("\n%.*s", (int)vessel_ring_list(tape, length, out, sizeof out), (const char *)out);
}

int main(void)
{
    struct vessel_record record;
    memset(&record, 0, sizeof record);
    record.batch = 7;
    record.vessel = 3;
    record.temperature = 612; /* tenths, as on the tape of document 01 */
    record.name_length = 2;
    memcpy(record.name, "A1", 2);

    ring = vessel_ring_fresh();
    plain(0x10, vessel_ring_add_node(&ring, 1));
    plain(0x10, vessel_ring_add_node(&ring, 2));
    plain(0x11, vessel_ring_add_channel(&ring, 1, 0));
    plain(0x12, vessel_ring_start(&ring));
    ask(0);
    ask(0);
    plain(0x22, vessel_ring_enter(&ring, 0));
    moved(vessel_ring_move(&ring, 0));
    plain(0x21, vessel_ring_send_tenths(&ring, 0, record));
    plain(0x22, vessel_ring_enter(&ring, 1));
    moved(vessel_ring_move(&ring, 1));
    moved(vessel_ring_move(&ring, 1));
    printf("end %u %u\n", accepted, refused);
    record.temperature = 6345; /* hundredths */
    vessel_ring_send(&ring, 0, record);
    vessel_ring_receive(&ring, 0);
    dispatch();
    damaged();
    damaged_history();
    taped();
    return 0;
}

/* A controller's program around the ring: versions compared at start, the plan, records made of strings, the ring run a few rounds at a time
   beside other work, and what it delivers noted. Prints what a fitter would like to see, and the words for each refusal. */
#include "vessel_ring.h"

#include <stdio.h>

#if VESSEL_MAJOR != 3
#error "this program was written for version 3 of the vessel ring: read docs/C-CHANGES.md"
#endif

enum { ROUNDS_AT_A_TIME = 2 };

static struct vessel_ring ring = VESSEL_RING_FRESH;
static struct vessel_row table[VESSEL_HISTORY_ROWS] = VESSEL_TABLE_EMPTY;

/* Whether a call was accepted; says why not. */
static int accepted(const char *call, uint8_t refusal)
{
    if (refusal != VESSEL_DONE)
        printf("%s: %s (%u)\n", call, vessel_refusal_text(refusal), refusal);
    return refusal == VESSEL_DONE;
}

/* Three nodes of two slots, and three channels: two to node 0, one to node 1. */
static int plan(void)
{
    static const uint8_t ends[][2] = {{1, 0}, {2, 0}, {2, 1}};
    size_t i;
    for (i = 0; i < 3; i++)
        if (!accepted("add node", vessel_ring_add_node(&ring, 2)))
            return 0;
    for (i = 0; i < sizeof ends / sizeof ends[0]; i++)
        if (!accepted("add channel", vessel_ring_add_channel(&ring, ends[i][0], ends[i][1])))
            return 0;
    return accepted("start", vessel_ring_start(&ring));
}

/* A probe's reading, in hundredths, offered under the label of its batch. */
static void offer(uint8_t channel, uint32_t batch, int16_t hundredths, const char *label)
{
    struct vessel_record record;
    uint8_t refusal;
    if (!accepted("label", vessel_record_make(&record, batch, 3, hundredths, label)))
        return;
    refusal = vessel_ring_send(&ring, channel, record);
    switch (vessel_refusal_of(refusal)) {
    case VESSEL_DONE:
        printf("offered on channel %u: %s\n", channel, label);
        break;
    case VESSEL_ALREADY_OFFERED:
        record = vessel_ring_offer(&ring, channel);
        printf("channel %u still has %.*s: later\n", channel, record.name_length, (const char *)record.name);
        break;
    default:
        accepted("send", refusal);
    }
}

/* Runs the ring until nothing is under way, a few rounds at a time. */
static void run(void)
{
    struct vessel_dispatched answer;
    int i;
    do {
        answer = vessel_ring_dispatch(&ring, ROUNDS_AT_A_TIME);
        if (!accepted("dispatch", answer.refusal))
            return;
        for (i = 0; i < answer.count; i++) {
            const struct vessel_record *record = &answer.records[i];
            printf("channel %u: batch %u, %.*s\n", answer.channels[i], record->batch, record->name_length, (const char *)record->name);
            accepted("note", vessel_history_note(table, VESSEL_ROWS(table), *record));
        }
        printf("rounds %u, %u would be enough; under way %u\n", answer.rounds, vessel_rounds_enough(&ring), vessel_ring_under_way(&ring));
        /* other work of the controller goes here */
    } while (vessel_ring_under_way(&ring) > 0);
}

int main(void)
{
    struct vessel_figures figures;
    uint8_t k;
    if (vessel_version() != VESSEL_VERSION) {
        printf("the header is version %u and the library %u\n", (unsigned)VESSEL_VERSION, vessel_version());
        return 1;
    }
    if (!plan())
        return 1;
    for (k = 0; k < ring.channel_count; k++)
        accepted("receive", vessel_ring_receive(&ring, k));
    accepted("receive", vessel_ring_receive(&ring, 0));
    offer(0, 7, 6120, "A1");
    offer(0, 8, 6345, "A2");
    offer(1, 7, 6180, "A1 ");
    offer(1, 7, 6180, "a label of more than thirty-two bytes");
    offer(1, 7, 6180, "A1");
    run();
    for (k = 0; k < ring.channel_count; k++)
        printf("channel %u is %s\n", k, vessel_phase_text(ring.phases[k]));
    figures = vessel_history_figures(table, VESSEL_ROWS(table), 7);
    printf("batch 7: lowest %d, highest %d\n", figures.lowest, figures.highest);
    return 0;
}

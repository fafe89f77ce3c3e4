/* The main loop of the controller that holds the ring: three vessels, a node each; node 0 holds it and asks the other two for records again and
   again. A few lines stand in for the cable, the probes and the panel: `carry`, `offer` and `show` are where a site's own drivers go. Prints what
   is not so. */
#include "vessel_ring.h"

#include <stdio.h>
#include <string.h>

enum { NODES = 3, CHANNELS = 2, TURNS = 20, WANTED = 3 };

static struct vessel_ring ring; /* held here and nowhere else */
static unsigned asked[CHANNELS], sent[CHANNELS], shown[CHANNELS];
static unsigned frames, last_batch; /* on the cable: how many, and the batch number in the last one that had a record */
static int wrong;

static void holds(int what, const char *says)
{
    if (!what) {
        wrong++;
        printf("main_loop.c: not so: %s\n", says);
    }
}

/* The cable from a node to the next: carries a message, and returns when it has arrived. A request is its channel's number alone. */
static void carry(uint8_t node, uint8_t channel, const uint8_t *record)
{
    (void)node;
    (void)channel;
    frames++;
    if (record != NULL)
        last_batch = record[0] | (unsigned)record[1] << 8; /* low byte first; these batch numbers are small */
}

/* A probe: has a record for its channel whenever the ring will take one. */
static void offer(uint8_t channel)
{
    struct vessel_record record;
    memset(&record, 0, sizeof record);
    record.batch = 100u * (channel + 1u) + sent[channel];
    record.vessel = ring.senders[channel];
    record.temperature = 6120;
    if (vessel_ring_send(&ring, channel, record) == VESSEL_DONE) /* 15: the last one still waits to be asked for */
        sent[channel]++;
}

/* The panel: shows what was delivered, in the order in which it was sent. */
static void show(uint8_t channel, struct vessel_record record)
{
    holds(record.batch == 100u * (channel + 1u) + shown[channel], "records keep their order");
    holds(record.batch == last_batch, "the record that came is the one on the cable");
    shown[channel]++;
}

/* The tasks: one asks on each channel, and one at its other end has something to send. */
static void serve_tasks(uint8_t channel)
{
    if (asked[channel] < WANTED && vessel_ring_receive(&ring, channel) == VESSEL_DONE) /* 10: the last request is under way */
        asked[channel]++;
    offer(channel);
}

/* The traffic at a node: its own message enters, then the first of its buffer goes over the cable. */
static void serve_node(uint8_t node)
{
    struct vessel_delivery answer;
    uint8_t record[VESSEL_RECORD_BYTES];
    uint8_t channel, has_record;
    vessel_ring_enter(&ring, node); /* 17 or 18: none waits, or no slot is free */
    if (ring.used[node] == 0)
        return;
    channel = (uint8_t)(ring.slots[node][0] - 1);
    has_record = ring.phases[channel] == VESSEL_ANSWERING;
    memcpy(record, ring.carried[channel], sizeof record); /* before the move: a delivery leaves zeros there */
    answer = vessel_ring_move(&ring, node);
    if (answer.refusal != VESSEL_DONE) /* 20 or 21: the next node is not free, so later */
        return;
    carry(node, channel, has_record ? record : NULL);
    if (answer.delivered)
        show(answer.channel, answer.record);
}

int main(void)
{
    uint8_t i;
    int turn;
    ring = vessel_ring_fresh();
    for (i = 0; i < NODES; i++)
        holds(vessel_ring_add_node(&ring, 1) == VESSEL_DONE, "a node is added");
    for (i = 0; i < CHANNELS; i++)
        holds(vessel_ring_add_channel(&ring, (uint8_t)(i + 1), 0) == VESSEL_DONE, "a channel is added");
    holds(vessel_ring_start(&ring) == VESSEL_DONE, "the ring starts");

    for (turn = 0; turn < TURNS; turn++) { /* in firmware without end, at the pace of the site's clock */
        for (i = 0; i < CHANNELS; i++)
            serve_tasks(i);
        for (i = 0; i < NODES; i++)
            serve_node(i);
    }

    holds(shown[0] == WANTED && shown[1] == WANTED, "every request was answered");
    holds(frames == NODES * 2 * WANTED, "a request and its response go once round the ring together");
    return wrong != 0;
}

/* What the header has beside the proved calls, at its edges: the version, the initialisers, a record from a string and from a ring's bytes,
   the rounds, what is under way, the words. And what the header says of the calls that a caller may want to rely on: zeros are a fresh ring,
   a table that is too short or too long is 25, a listing that does not fit can be told. Prints what is not so. */
#include "vessel_ring.h"

#include <stdio.h>
#include <string.h>

#ifdef __cplusplus
#define ALIGNMENT(type) alignof(type)
#else
#define ALIGNMENT(type) _Alignof(type)
#endif

static int wrong;

#define HOLDS(what)                                                   \
    do {                                                              \
        if (!(what)) {                                                \
            wrong++;                                                  \
            printf("helpers.c:%d: not so: %s\n", __LINE__, #what);    \
        }                                                             \
    } while (0)

static void begins(void)
{
    static struct vessel_ring ring = VESSEL_RING_FRESH;
    static struct vessel_row table[VESSEL_HISTORY_ROWS] = VESSEL_TABLE_EMPTY;
    static struct vessel_row more[VESSEL_HISTORY_ROWS + 1], fewer[VESSEL_HISTORY_ROWS - 1];
    struct vessel_ring fresh = vessel_ring_fresh(), zeros;
    memset(&zeros, 0, sizeof zeros);
    HOLDS(vessel_version() == VESSEL_VERSION && VESSEL_VERSION == 100 * VESSEL_MAJOR + VESSEL_MINOR && VESSEL_MINOR < 100);
    HOLDS(memcmp(&fresh, &zeros, sizeof zeros) == 0 && memcmp(&ring, &zeros, sizeof zeros) == 0);
    HOLDS(vessel_ring_is_sound(&zeros) == 1 && vessel_ring_add_node(&zeros, 1) == VESSEL_DONE);
    HOLDS(ALIGNMENT(struct vessel_ring) == 4 && ALIGNMENT(struct vessel_row) == 4);
    HOLDS(VESSEL_ROWS(table) == 128 && vessel_history_close(table, VESSEL_ROWS(table), 7) == VESSEL_DONE);
    HOLDS(vessel_history_close(more, VESSEL_ROWS(more), 7) == VESSEL_UNSOUND_RING);
    HOLDS(vessel_history_close(fewer, VESSEL_ROWS(fewer), 7) == VESSEL_UNSOUND_RING);
}

/* Whether the record made of this name has it, and zeros behind it. */
static int is_made(const char *name)
{
    struct vessel_record record;
    uint8_t cells[VESSEL_NAME];
    memset(&record, 0xEE, sizeof record);
    memset(cells, 0, sizeof cells);
    memcpy(cells, name, strlen(name));
    return vessel_record_make(&record, 0x01020304u, 0xA5, -3999, name) == VESSEL_DONE && record.batch == 0x01020304u && record.vessel == 0xA5
           && record.temperature == -3999 && record.name_length == strlen(name) && memcmp(record.name, cells, sizeof cells) == 0;
}

static void strings(void)
{
    char name[300];
    struct vessel_record record, before;
    size_t length;
    for (length = 0; length < sizeof name; length++) {
        memset(name, 'N', length);
        name[length] = '\0';
        if (length <= VESSEL_NAME) {
            HOLDS(is_made(name));
            continue;
        }
        memset(&record, 0xEE, sizeof record);
        before = record;
        HOLDS(vessel_record_make(&record, 7, 3, 6120, name) == VESSEL_NAME_TOO_LONG && memcmp(&record, &before, sizeof record) == 0);
    }
    HOLDS(is_made("\xC3\xA9")); /* for send to judge */
}

/* Two nodes; 64 channels from 1 to 0. */
static struct vessel_ring started(void)
{
    struct vessel_ring ring = vessel_ring_fresh();
    int i;
    HOLDS(vessel_rounds_enough(&ring) == 0);
    HOLDS(vessel_ring_add_node(&ring, 64) == VESSEL_DONE && vessel_ring_add_node(&ring, 1) == VESSEL_DONE);
    for (i = 0; i < VESSEL_CHANNELS; i++)
        HOLDS(vessel_ring_add_channel(&ring, 1, 0) == VESSEL_DONE);
    HOLDS(vessel_ring_start(&ring) == VESSEL_DONE);
    return ring;
}

static int is_same(struct vessel_record a, struct vessel_record b)
{
    return memcmp(&a, &b, sizeof a) == 0;
}

static void records(void)
{
    struct vessel_ring ring = started();
    struct vessel_record record, zeros;
    uint8_t bytes[VESSEL_RECORD_BYTES + 2];
    size_t length;
    memset(&zeros, 0, sizeof zeros);
    HOLDS(vessel_record_make(&record, 0xFEDCBA98u, 0xA5, -3999, "a name of thirty-two bytes, full") == VESSEL_DONE);
    HOLDS(record.name_length == VESSEL_NAME && vessel_ring_send(&ring, 63, record) == VESSEL_DONE);
    HOLDS(is_same(vessel_ring_offer(&ring, 63), record) && is_same(vessel_ring_carried(&ring, 63), zeros));
    HOLDS(is_same(vessel_ring_offer(&ring, 62), zeros) && is_same(vessel_ring_offer(&ring, 64), zeros));
    HOLDS(is_same(vessel_ring_offer(&ring, 255), zeros) && is_same(vessel_ring_carried(&ring, 255), zeros));
    memset(bytes, 0xEE, sizeof bytes);
    memcpy(bytes + 1, ring.offers[63], VESSEL_RECORD_BYTES);
    for (length = 0; length <= VESSEL_RECORD_BYTES + 1; length++)
        HOLDS(is_same(vessel_record_in(bytes + 1, length), length < VESSEL_RECORD_BYTES ? zeros : record));
    memset(bytes, 0xEE, sizeof bytes);
    record = vessel_record_in(bytes, VESSEL_RECORD_BYTES); /* no good record: nothing is judged */
    HOLDS(record.batch == 0xEEEEEEEEu && record.temperature == -0x1112 && record.name_length == 0xEE && record.name[31] == 0xEE);
}

static void rounds(void)
{
    struct vessel_ring ring = started();
    struct vessel_record record;
    struct vessel_dispatched answer;
    uint8_t k;
    HOLDS(vessel_rounds_enough(&ring) == 64 * (2 * 2 + 2) && vessel_ring_under_way(&ring) == 0);
    HOLDS(vessel_record_make(&record, 7, 3, 6120, "A1") == VESSEL_DONE);
    for (k = 0; k < VESSEL_CHANNELS; k++)
        HOLDS(vessel_ring_receive(&ring, k) == VESSEL_DONE && vessel_ring_under_way(&ring) == k + 1);
    HOLDS(vessel_ring_send(&ring, 0, record) == VESSEL_DONE);
    answer = vessel_ring_dispatch(&ring, 1); /* the first channel's request arrives and its response comes back */
    HOLDS(answer.rounds == 1 && answer.count == 1 && vessel_ring_under_way(&ring) == VESSEL_CHANNELS - 1);
    HOLDS(vessel_ring_send(&ring, 63, record) == VESSEL_DONE);
    answer = vessel_ring_dispatch(&ring, 62);
    HOLDS(answer.rounds == 62 && answer.count == 0 && vessel_ring_under_way(&ring) == 1);
    answer = vessel_ring_dispatch(&ring, vessel_rounds_enough(&ring));
    HOLDS(answer.rounds == 1 && answer.count == 1 && vessel_ring_under_way(&ring) == 0);
    HOLDS(strcmp(vessel_phase_text(ring.phases[0]), "resting") == 0 && strcmp(vessel_phase_text(ring.phases[1]), "ready") == 0);
    HOLDS(vessel_ring_receive(&ring, 0) == VESSEL_DONE && strcmp(vessel_phase_text(ring.phases[0]), "asking") == 0);
    HOLDS(vessel_ring_send(&ring, 1, record) == VESSEL_DONE && strcmp(vessel_phase_text(ring.phases[1]), "answering") == 0);
    HOLDS(vessel_ring_under_way(&ring) == 2 && strcmp(vessel_phase_text(4), "no phase") == 0 && strcmp(vessel_phase_text(255), "no phase") == 0);
    ring = vessel_ring_fresh();
    for (k = 0; k < VESSEL_NODES; k++)
        HOLDS(vessel_ring_add_node(&ring, 64) == VESSEL_DONE);
    for (k = 0; k < VESSEL_CHANNELS; k++)
        HOLDS(vessel_ring_add_channel(&ring, 0, 0) == VESSEL_DONE);
    HOLDS(vessel_rounds_enough(&ring) == 2176);
}

/* Where the last line of a listing begins. */
static const uint8_t *last_line(const uint8_t *out, size_t written)
{
    size_t i = written - 1;
    while (i > 0 && out[i - 1] != '\n')
        i--;
    return out + i;
}

/* The same tape with every room: what does not fit can be told from what does. */
static void listed(const uint8_t *tape, size_t length, const char *end)
{
    static uint8_t all[1024], out[1024];
    size_t whole = vessel_ring_list(tape, length, all, sizeof all);
    size_t room, written, short_ones = 0;
    HOLDS(vessel_list_is_whole(whole, sizeof all) == 1);
    for (room = 0; room <= whole + VESSEL_LINE_ROOM; room++) {
        written = vessel_ring_list(tape, length, out, room);
        HOLDS(written <= whole && memcmp(out, all, written) == 0);
        HOLDS(written == whole || vessel_list_is_whole(written, room) == 0);
        HOLDS(written == 0 || (memcmp(last_line(out, written), end, strlen(end)) == 0) == (written == whole));
        short_ones += written < whole;
    }
    HOLDS(short_ones > 0 && vessel_list_is_whole(whole, whole + VESSEL_LINE_ROOM) == 1);
    HOLDS(vessel_list_is_whole(whole, whole + VESSEL_LINE_ROOM - 1) == 0);
    HOLDS(vessel_list_is_whole(1, 0) == 0);
}

static void listings(void)
{
    static uint8_t tape[60001];
    static const uint8_t calls[] = {0x10, 1, 0x10, 2, 0x11, 1, 0, 0x12, 0x20, 0, 0x20, 0, 0x7F};
    memcpy(tape, calls, sizeof calls);
    listed(tape, sizeof calls, "end ");
    listed(tape, 0, "end ");
    listed(tape, sizeof tape, "too long\n");
}

static void words(void)
{
    int number;
    HOLDS(strcmp(vessel_refusal_text(VESSEL_DONE), "The call was accepted") == 0);
    for (number = VESSEL_BLANK_END + 1; number < 256; number++)
        HOLDS(strcmp(vessel_refusal_text((uint8_t)number), "There is no refusal of this number") == 0);
    for (number = 0; number <= VESSEL_BLANK_END; number++)
        HOLDS((int)vessel_refusal_of((uint8_t)number) == number && strlen(vessel_refusal_text((uint8_t)number)) < VESSEL_TEXT);
}

int main(void)
{
    begins();
    strings();
    records();
    rounds();
    listings();
    words();
    return wrong != 0;
}

/* The vessel ring for firmware: C11 and C++, x86-64 System V. Link libvessel_ring.a, which `tools/library` writes to
   crates/vessel_ring/out. Every function of the library is proved to do what its contract in crates/vessel_ring/src/lib.rt says, for every value
   of every argument; the small ones in C behind them are tested. This header is written by hand; the assertions at its end hold its types
   to the sizes and places that the library has.

   Who holds it. A site has one struct vessel_ring for all its vessels, and one controller holds it; each vessel's controller is a node, and the
   cable joins them in a ring:

       node 0 --- move 0 --> node 1 --- move 1 --> node 2 --- move 2 --> node 0

   Which one holds it, how the others reach it, the drivers of the cable and clocks are left to the controllers. A task that wants or has a record
   is a receive or a send on that struct. A move that is accepted is one message on the cable, from its node to the next: before the call
   slots[node][0] is its channel + 1, and carried[channel] has the record of a response. The driver then carries it, hands on what was delivered,
   and makes the next call at these two nodes when the message has arrived. No call waits or knows of time. docs/RING.md has the rules of the
   ring, examples/c/main_loop.c the loop.

   How it is used. Keep one struct vessel_ring and lend it to the calls (examples/c/firmware.c is a whole program):

       static struct vessel_ring ring = VESSEL_RING_FRESH;
       if (vessel_version() != VESSEL_VERSION) ...       header and library are not of one version: do not go on
       vessel_ring_add_node(&ring, 4);                   the plan: nodes, channels, start
       vessel_ring_add_channel(&ring, 1, 0);
       vessel_ring_start(&ring);
       vessel_ring_receive(&ring, 0);                    the tasks: ask for a record, offer one
       vessel_record_make(&record, 7, 3, 6120, "A1");
       vessel_ring_send(&ring, 0, record);
       vessel_ring_enter(&ring, 0);                      the traffic: at every node, again and again
       struct vessel_delivery d = vessel_ring_move(&ring, 0);
       struct vessel_dispatched all = vessel_ring_dispatch(&ring, 100);   or this, which makes these calls itself, in rounds
       vessel_ring_withdraw(&ring, 0);                   a task that gives up, while its request still waits to enter

   Beside it, where the temperatures of the batches are wanted, keep a table of rows, which begins as zeros, and lend it to its own calls:

       static struct vessel_row table[VESSEL_HISTORY_ROWS] = VESSEL_TABLE_EMPTY;
       vessel_history_note(table, VESSEL_ROWS(table), d.record);                        what was delivered, say
       struct vessel_figures f = vessel_history_figures(table, VESSEL_ROWS(table), 7);  of batch 7
       struct vessel_row_batch b = vessel_history_batch(table, VESSEL_ROWS(table), 0);  the batch of row 0, if any
       vessel_history_close(table, VESSEL_ROWS(table), 7);                              its row is free for another batch

   A call on a ring, a table or a tape answers 0, VESSEL_DONE, or the number of the first refusal that applies, by itself or as `refusal` of
   a struct. A refusal leaves the ring, the table and every buffer as they were, to the byte. Do not write to ring or table yourself; one
   whose bytes are not those of a sound ring or table, for whatever reason, is refused by every call on it with VESSEL_UNSOUND_RING.

   What the caller owes, and nothing checks:
   - `ring` points to a whole struct vessel_ring, aligned as one is, to 4 bytes;
   - `table` points to `rows` rows, aligned likewise. All of them are read before the call answers. So 25 for another number of rows than
     128 is said of rows that are there; a number greater than that of the rows there are has the call read beyond them, and no answer
     protects from it. VESSEL_ROWS(table) counts the rows of an array;
   - `bytes` points to `length` bytes, and `tape` and `out` do not overlap;
   - nothing else reads or writes during the call what is lent to it (below: interrupts);
   - the stack has VESSEL_STACK bytes, for vessel_ring_to_hundredths VESSEL_STACK_TURNING: no other call copies the ring;
   - memcpy, memmove and memset are there, the C library's or the firmware's own: the library needs nothing else from outside. Nothing is
     allocated, and nothing is kept between calls.

   Interrupts and tasks. The calls know no locks. On one ring, or one table, there is one call at a time: where an interrupt handler calls too,
   keep it off while the main program calls, or let it leave what it has in a place of its own, and call from the main loop. The calls that
   take a const ring or table read it and write nothing: any number of them may be under way on it at once, while none of the others is.
   Calls on different rings and tables may interrupt one another as they like.

   A ring from a store. A ring and a row have no padding: they may be copied, compared and stored as memory. Their numbers of 16 and 32 bits
   have the machine's byte order. Copy what was loaded into a struct vessel_ring, by memcpy, rather than point into a buffer of bytes, which
   may lie at any address; then ask vessel_ring_is_sound. A ring of zeros is a fresh one, so a static ring is fresh from the start, and a
   store that was never written, where it reads as zeros, gives a fresh ring and not a refusal. */
#ifndef VESSEL_RING_H
#define VESSEL_RING_H

#include <stddef.h>
#include <stdint.h>

#ifdef __cplusplus
extern "C" {
#endif

/* The version of this interface. The library says its own, vessel_version(), for the firmware to compare at start. The major number rises
   where firmware has to be looked at: source written for the number before does not compile, or compiles and does something else. The minor
   number rises where something is added that such source does not notice. docs/C-CHANGES.md says what each brought. A firmware that says
   for which major number it was written does not miss a change:

       #if VESSEL_MAJOR != 3
       #error "read docs/C-CHANGES.md"
       #endif
*/
#define VESSEL_MAJOR 3
#define VESSEL_MINOR 1
#define VESSEL_VERSION (100 * VESSEL_MAJOR + VESSEL_MINOR)

/* The limits, and the sizes of the arrays. */
#define VESSEL_NODES 16
#define VESSEL_CHANNELS 64
#define VESSEL_SLOTS 64 /* of a node; also the cells of a node's row */
#define VESSEL_NAME 32
#define VESSEL_RECORD_BYTES 40  /* of a record as bytes, on a tape and in the ring */
#define VESSEL_HISTORY_ROWS 128 /* of a history, no more and no fewer */
#define VESSEL_READINGS 24      /* of a row of it */
#define VESSEL_LINE_ROOM 160    /* room for any line of a listing */
#define VESSEL_TEXT 96          /* room for any text of a refusal, with the 0 behind it */
#define VESSEL_STACK 18432         /* at most, by tools/stack.py: the listing 8,792, the dispatcher 8,120, any other call 1,464 */
#define VESSEL_STACK_TURNING 32768 /* 15,192 */

/* The refusals. Document 01 has the order in which each call tests them; docs/REFUSALS.md has it as a table. A call answers one as a byte;
   vessel_refusal_of makes it this type, so that the compiler says which of them a switch leaves out. */
enum vessel_refusal {
    VESSEL_DONE = 0,                     /* none: the call was accepted */
    VESSEL_ALREADY_STARTED = 1,          /* the plan is closed */
    VESSEL_NODES_FULL = 2,               /* 16 nodes stand */
    VESSEL_BAD_SLOTS = 3,                /* slots are not 1 to 64 */
    VESSEL_CHANNELS_FULL = 4,            /* 64 channels stand */
    VESSEL_NO_SUCH_END = 5,              /* sender or receiver is not a node added so far */
    VESSEL_NOTHING_TO_START = 6,         /* no node or no channel */
    VESSEL_TOO_FEW_SLOTS = 7,            /* all slots together are not more than the channels */
    VESSEL_NOT_STARTED = 8,
    VESSEL_NO_SUCH_CHANNEL = 9,
    VESSEL_NOT_RESTING = 10,             /* a receive is under way on this channel */
    VESSEL_BATCH_NUMBER_ZERO = 11,
    VESSEL_TEMPERATURE_OUT_OF_RANGE = 12,
    VESSEL_NAME_TOO_LONG = 13,
    VESSEL_BAD_NAME = 14,                /* a byte of the name is not 0x20 to 0x7E, or one behind it is not 0 */
    VESSEL_ALREADY_OFFERED = 15,         /* the record offered before is still there: try again later */
    VESSEL_NO_SUCH_NODE = 16,
    VESSEL_LINE_EMPTY = 17,              /* nothing waits to enter here */
    VESSEL_NO_FREE_SLOT = 18,            /* the node's buffer is full: move first */
    VESSEL_BUFFER_EMPTY = 19,            /* nothing to move here */
    VESSEL_NEXT_BUFFER_FULL = 20,        /* the next node has no free slot: move there first */
    VESSEL_TURN_MARK_SET = 21,           /* the next node's own line has its turn: enter there first */
    VESSEL_UNKNOWN_COMMAND = 22,
    VESSEL_COMMAND_CUT = 23,             /* fewer bytes are left than the command is wide */
    VESSEL_PLACE_BEYOND_END = 24,
    VESSEL_UNSOUND_RING = 25,            /* these bytes are not a ring; or these rows are not a table */
    VESSEL_NO_ROOM_TO_WRITE = 26,        /* fewer bytes from the place on than the command is wide */
    VESSEL_NOT_ASKING = 27,              /* no request to withdraw: the channel rests, or its request has arrived */
    VESSEL_REQUEST_IN_BUFFER = 28,       /* the request has left its line: too late to withdraw it */
    VESSEL_NO_EMPTY_ROW = 29,            /* the batch has no row and all 128 are in use: close a batch first */
    VESSEL_BLANK_END = 30                /* the name begins or ends with a blank, 0x20: send refuses it, and nothing else does */
};

/* What is under way on a channel. */
enum vessel_phase {
    VESSEL_RESTING = 0,
    VESSEL_ASKING = 1,   /* its request is on the ring */
    VESSEL_READY = 2,    /* the request arrived and no record was offered */
    VESSEL_ANSWERING = 3 /* its response is on the ring, with the record carried */
};

/* A ring: read it as you like, change it by the calls alone. The arrays go by node or by channel number. What is not in use is zero. */
struct vessel_ring {
    uint32_t deliveries;                  /* stops at 4,294,967,295 */
    uint8_t started;
    uint8_t node_count;
    uint8_t channel_count;
    uint8_t spare;                        /* always 0 */
    uint8_t capacity[VESSEL_NODES];       /* how many slots the node's buffer has */
    uint8_t used[VESSEL_NODES];           /* and how many of them hold a message */
    uint8_t waiting[VESSEL_NODES];        /* how many messages wait to enter: the node's line */
    uint8_t marks[VESSEL_NODES];          /* the turn mark, 0 or 1 */
    uint8_t senders[VESSEL_CHANNELS];     /* the channel's sender node */
    uint8_t receivers[VESSEL_CHANNELS];   /* and its receiver node */
    uint8_t phases[VESSEL_CHANNELS];      /* an enum vessel_phase */
    uint8_t offered[VESSEL_CHANNELS];     /* 1 where a record is offered */
    uint8_t slots[VESSEL_NODES][VESSEL_SLOTS];                     /* the buffers: channel number + 1, oldest first */
    uint8_t lines[VESSEL_NODES][VESSEL_SLOTS];                     /* the lines, likewise */
    uint8_t offers[VESSEL_CHANNELS][VESSEL_RECORD_BYTES];          /* the record offered, in the order of command 0x25, which is not that of
                                                                      struct vessel_record: vessel_ring_offer and vessel_record_in read it */
    uint8_t carried[VESSEL_CHANNELS][VESSEL_RECORD_BYTES];         /* the record that the response carries, likewise */
};

/* A batch record. Its temperature is in hundredths wherever a record stands but in two places, where it is in tenths: beside the code 0x21
   of a command, and as it is given to vessel_ring_send_tenths. To be sent, its name may not begin or end with a blank, 0x20: two labels
   that differ by one look the same on paper. A ring that holds such a name, from before send refused it, is sound; the record is delivered
   unchanged, and the history takes it. */
struct vessel_record {
    uint32_t batch;            /* not 0 */
    uint8_t vessel;
    uint8_t name_length;       /* at most 32 */
    int16_t temperature;       /* hundredths of a degree Celsius, -4000 to 12000 */
    uint8_t name[VESSEL_NAME]; /* name_length bytes of 0x20 to 0x7E, then zeros */
};

/* What a move answers. Where `delivered` is 1, the record arrived at the channel's receiver; elsewhere channel and record are zero. */
struct vessel_delivery {
    uint8_t refusal;
    uint8_t delivered;
    uint8_t channel;
    struct vessel_record record;
};

/* What the dispatcher answers. Delivery i, from 0 and in the order in which they came, was records[i] on channels[i]; no channel stands
   there twice. Behind the last delivery both arrays are zero; where refused, all but `refusal` is. It has no padding. */
struct vessel_dispatched {
    uint16_t rounds; /* how many rounds were made */
    uint8_t refusal;
    uint8_t count;   /* how many deliveries there are */
    uint8_t channels[VESSEL_CHANNELS];
    struct vessel_record records[VESSEL_CHANNELS];
};

struct vessel_hops {
    uint8_t refusal;
    uint8_t hops; /* 0 where refused */
};

struct vessel_waiting {
    uint64_t set;   /* bit k is channel k; 0 where refused */
    uint32_t tasks; /* how many bits of it are 1 */
    uint8_t refusal;
};

/* A row of the history: the last readings of one batch. An empty row is all zero, and so is a table to begin with. No two rows are of one
   batch, and batch number 0 has none. Read it as you like, change it by the calls alone. */
struct vessel_row {
    uint32_t batch;                    /* 0 in an empty row */
    uint32_t count;                    /* how many readings stand here, 1 to 24; 0 in an empty row */
    int16_t readings[VESSEL_READINGS]; /* hundredths, as in a record, oldest first, then zeros */
};

/* The figures of a batch, in hundredths: of the readings in its row. Where it has no row, and where refused, `held` and the three are 0. */
struct vessel_figures {
    int32_t sum;
    int16_t lowest;
    int16_t highest;
    uint8_t refusal;
    uint8_t held; /* 1 where the batch has a row, else 0 */
};

/* The batch of a row of the history. */
struct vessel_row_batch {
    uint32_t batch; /* 0 where the row is empty, where there is no such row, and where refused */
    uint8_t refusal;
};

/* A command of the tape. `code` is its command byte: 0x10 add node (first: slots), 0x11 add channel (first: sender, second: receiver),
   0x12 start, 0x20 receive (first: channel), 0x21 send in tenths (first: channel; record), 0x22 enter (first: node), 0x23 move (first:
   node), 0x24 withdraw (first: channel), 0x25 send in hundredths (first: channel; record). The temperature beside 0x21 is tenths of a
   degree and beside 0x25 hundredths, as it stands on the tape; so a command that was read is written back as it was. What a command does
   not have is zero when it is read, and is not looked at when it is written. No command has the code 0. */
struct vessel_command {
    uint8_t code;
    uint8_t first;
    uint8_t second;
    struct vessel_record record;
};

/* What stands at a place of a tape: a refusal; `end` 1, the tape ends here; or the command and `next`, the place behind it. Where there is
   no command, all of `command` is zero. */
struct vessel_reading {
    size_t next; /* 0 where there is no command */
    uint8_t refusal;
    uint8_t end;
    struct vessel_command command;
};

struct vessel_writing {
    size_t next; /* the place behind the command; 0 where refused */
    uint8_t refusal;
};

/* What a ring and a table begin with, as initialisers: zeros. And the number of rows of a table that is an array; of a pointer, which does
   not know its rows, it is 0, and the call answers 25. */
#ifdef __cplusplus
#define VESSEL_RING_FRESH {}
#define VESSEL_TABLE_EMPTY {}
#else
#define VESSEL_RING_FRESH {0}
#define VESSEL_TABLE_EMPTY {{0}}
#endif
#define VESSEL_ROWS(table) (sizeof(table) / sizeof((table)[0]))

/* ---- the version */

/* VESSEL_VERSION of the header that this library belongs to. */
uint32_t vessel_version(void);

/* ---- the plan */

/* A ring with no node and no channel, not started. Document 01's nodes and channels get their numbers in the order in which they are
   added, from 0. */
struct vessel_ring vessel_ring_fresh(void);

/* Adds a node with so many slots, 1 to 64. Refusals: 25, 1, 2, 3. */
uint8_t vessel_ring_add_node(struct vessel_ring *ring, uint8_t slots);

/* Adds a channel from a node to a node, which may be the same. Refusals: 25, 1, 4, 5. */
uint8_t vessel_ring_add_channel(struct vessel_ring *ring, uint8_t sender, uint8_t receiver);

/* Closes the plan; from here on the ring runs. All slots together have to be more than the channels. Refusals: 25, 1, 6, 7. */
uint8_t vessel_ring_start(struct vessel_ring *ring);

/* ---- the tasks */

/* Asks for a record on a resting channel: the request joins the receiver node's line. The record comes as the delivery of some later
   move. Refusals: 25, 8, 9, 10. */
uint8_t vessel_ring_receive(struct vessel_ring *ring, uint8_t channel);

/* Offers a record on a channel. If the request has arrived, the record joins the sender node's line as the response; else it is kept
   until the request arrives. Its name may be empty, but not begin or end with a blank. Its temperature is in hundredths: 612 is 6.12
   degrees. Under major numbers 1 and 2 it is in tenths, and source from there compiles here as it is: a probe that gives tenths wants
   vessel_ring_send_tenths. Refusals: 25, 8, 9, 11, 12, 13, 14, 30, 15. */
uint8_t vessel_ring_send(struct vessel_ring *ring, uint8_t channel, struct vessel_record record);

/* The same with a temperature in tenths, for a probe that gives these: 12 where it is not -400 to 1200, else the record offered has ten
   times as many hundredths. Refusals: 25, 8, 9, 11, 12, 13, 14, 30, 15. */
uint8_t vessel_ring_send_tenths(struct vessel_ring *ring, uint8_t channel, struct vessel_record record);

/* ---- the traffic: called at every node, in any order, again and again. A refusal of these says that there is nothing to do here now. An
   entry touches its node, a move its node and the next: two entries or moves that touch no common node give the same two answers and the
   same ring, whichever comes first. */

/* Brings the first message of the node's line into its buffer. Refusals: 25, 8, 16, 17, 18. */
uint8_t vessel_ring_enter(struct vessel_ring *ring, uint8_t node);

/* Moves the first message of the node's buffer to the next node, which takes it where it is meant for it: then a request makes its channel
   ready or sends the record offered back, and a response is delivered, which is the answer. Refusals: 25, 8, 16, 19, 20, 21. */
struct vessel_delivery vessel_ring_move(struct vessel_ring *ring, uint8_t node);

/* The dispatcher: runs the ring for at most so many rounds, and no longer than until no channel is asking or answering. A round tries an
   entry and then a move at each node in turn, from node 0. Fewer rounds than were given say that nothing is left on the ring; where all were
   made, vessel_ring_under_way says what is. With c channels and n nodes c * (2 * n + 2) rounds, vessel_rounds_enough, always leave nothing.
   Refusals: 25, 8. */
struct vessel_dispatched vessel_ring_dispatch(struct vessel_ring *ring, uint16_t rounds);

/* ---- a task that gives up */

/* Takes a channel's request out of the receiver node's line, where it still stands there: the channel rests, and the task may ask again.
   The others in the line keep their order, a record offered stays offered, and a line left empty loses its turn mark. Refusals: 25, 8, 9,
   27, 28. */
uint8_t vessel_ring_withdraw(struct vessel_ring *ring, uint8_t channel);

/* ---- the questions: they read the ring */

/* How many hops the channel's record still has to go, or its request and then the record; 0 when it rests. Refusals: 25, 8, 9. */
struct vessel_hops vessel_ring_hops_left(const struct vessel_ring *ring, uint8_t channel);

/* The channels on which the node's tasks wait for a record, and how many they are. Refusals: 25, 16. */
struct vessel_waiting vessel_ring_waiting_set(const struct vessel_ring *ring, uint8_t node);

/* 1 where the ring is sound, else 0: then every call answers 25. For a ring that comes from a store or over a wire. */
uint8_t vessel_ring_is_sound(const struct vessel_ring *ring);

/* The record in 40 bytes as a ring holds them, in offers and carried. Fewer bytes give a record of zeros, whose batch number 0 no good record
   has; more are not looked at. Nothing is judged: what the bytes say is answered. vessel_ring_offer and vessel_ring_carried go by channel. */
struct vessel_record vessel_record_in(const uint8_t *bytes, size_t length);

/* ---- a ring from before the temperatures were hundredths */

/* Turns a ring held in tenths into one held in hundredths: the temperature of each record offered or carried becomes ten times as many,
   and all else stays. For a ring that comes from such a store, once, before any call on it: a ring does not say in which unit it is held,
   and one that is turned already is turned a second time without a word where its temperatures are so small that it is sound in tenths
   too. Refusals: 25, a ring that is not sound in tenths; one that is, is a sound ring with temperatures of -400 to 1200. */
uint8_t vessel_ring_to_hundredths(struct vessel_ring *ring);

/* ---- the history: a table of `rows` rows, apart from any ring. 25 is a table that has not exactly 128 rows, has a row that is not as
   said above, or has two rows of one batch. */

/* Notes a record's temperature in the row of its batch, else in the lowest empty row; the oldest of 24 readings makes way. A blank at an
   end of the name is no fault here. Refusals: 25, 11, 12, 13, 14, 29. */
uint8_t vessel_history_note(struct vessel_row *table, size_t rows, struct vessel_record record);

/* Closes a batch: its whole row becomes zero, an empty row. Where it has no row nothing changes. Refusals: 25. */
uint8_t vessel_history_close(struct vessel_row *table, size_t rows, uint32_t batch);

/* The lowest, the highest and the sum of the readings in the row of a batch. Refusals: 25. */
struct vessel_figures vessel_history_figures(const struct vessel_row *table, size_t rows, uint32_t batch);

/* The batch of a row: for rows 0 to VESSEL_HISTORY_ROWS - 1 they are all that the table has, in any order and with empty rows between them.
   Refusals: 25. */
struct vessel_row_batch vessel_history_batch(const struct vessel_row *table, size_t rows, size_t row);

/* Turns a table held in tenths into one held in hundredths: every reading, and so every figure, becomes ten times as many, and all else
   stays. Of a second time the same holds as of a ring. Refusals: 25, a table that is not sound in tenths; one that is, is a sound table
   with readings of -400 to 1200. */
uint8_t vessel_history_to_hundredths(struct vessel_row *table, size_t rows);

/* ---- commands of a tape */

/* Reads the command at a place of a tape of so many bytes. Refusals: 24, 22, 23. */
struct vessel_reading vessel_tape_read(const uint8_t *bytes, size_t length, size_t place);

/* Writes a command at a place of a buffer of so many bytes, and nothing before or behind it. Every operand value is written, good or not;
   operands and fields that its code does not have are not. A command that was read, written at its place, leaves the bytes as they were.
   Refusals: 22 a code that no command has; 24, 26. */
struct vessel_writing vessel_tape_write(uint8_t *bytes, size_t length, size_t place, struct vessel_command command);

/* Runs a tape on a fresh ring and writes its listing from the beginning of `out`, as many whole lines as have room; answers how many bytes
   that is. All of the listing is there where `room` is its length and VESSEL_LINE_ROOM more. A line is written where VESSEL_LINE_ROOM bytes are
   left for it, however short it is: so all of the listing is there where as many are left of `room`, which vessel_list_is_whole says. Where
   fewer are left there may be more of it, and what is there looks no different but for its last line: that of a whole listing begins with
   `end`, or is `too long`. */
size_t vessel_ring_list(const uint8_t *tape, size_t length, uint8_t *out, size_t room);

/* ---- what every firmware writes. These are C, and tested; the functions before this are proved. */

/* 1 where a listing of so many bytes is all of it: room for one more line is left. */
static inline uint8_t vessel_list_is_whole(size_t written, size_t room)
{
    return written <= room && room - written >= VESSEL_LINE_ROOM;
}

/* Makes a record of a C string. Refusal: 13, a name of more than 32 bytes, which is never cut; the record is then as it was. All else, the
   temperature and the bytes of the name, is for send to judge. */
static inline uint8_t vessel_record_make(struct vessel_record *record, uint32_t batch, uint8_t vessel, int16_t temperature, const char *name)
{
    uint8_t length = 0;
    uint8_t i;
    while (name[length] != '\0') {
        if (length == VESSEL_NAME)
            return VESSEL_NAME_TOO_LONG;
        length++;
    }
    record->batch = batch;
    record->vessel = vessel;
    record->name_length = length;
    record->temperature = temperature;
    for (i = 0; i < VESSEL_NAME; i++)
        record->name[i] = i < length ? (uint8_t)name[i] : (uint8_t)0;
    return VESSEL_DONE;
}

/* The record offered on a channel, and the one that its response carries: of zeros where there is none, or no such channel. */
static inline struct vessel_record vessel_ring_offer(const struct vessel_ring *ring, uint8_t channel)
{
    return channel < VESSEL_CHANNELS ? vessel_record_in(ring->offers[channel], VESSEL_RECORD_BYTES) : vessel_record_in(ring->offers[0], 0);
}

static inline struct vessel_record vessel_ring_carried(const struct vessel_ring *ring, uint8_t channel)
{
    return channel < VESSEL_CHANNELS ? vessel_record_in(ring->carried[channel], VESSEL_RECORD_BYTES) : vessel_record_in(ring->carried[0], 0);
}

/* So many rounds of the dispatcher that nothing is left on a sound ring, whatever is on it: c * (2 * n + 2). */
static inline uint16_t vessel_rounds_enough(const struct vessel_ring *ring)
{
    return (uint16_t)(ring->channel_count * (2 * ring->node_count + 2));
}

/* How many channels are asking or answering, and so how many messages are on a sound ring: 0 where nothing is left to dispatch. */
static inline uint8_t vessel_ring_under_way(const struct vessel_ring *ring)
{
    uint8_t channels = 0;
    uint8_t i;
    for (i = 0; i < VESSEL_CHANNELS; i++)
        if (ring->phases[i] == VESSEL_ASKING || ring->phases[i] == VESSEL_ANSWERING)
            channels++;
    return channels;
}

/* What a call answered, as the type of the refusals. The library answers no other number. */
static inline enum vessel_refusal vessel_refusal_of(uint8_t number)
{
    return (enum vessel_refusal)number;
}

/* What a number says, in words: the meaning that docs/REFUSALS.md has for it, up to its first stop or colon. The text is constant. */
static inline const char *vessel_refusal_text(uint8_t number)
{
    if (number > VESSEL_BLANK_END)
        return "There is no refusal of this number";
    switch (vessel_refusal_of(number)) {
    case VESSEL_DONE: return "The call was accepted";
    case VESSEL_ALREADY_STARTED: return "The ring has already started";
    case VESSEL_NODES_FULL: return "Sixteen nodes stand already";
    case VESSEL_BAD_SLOTS: return "The slots are not 1 to 64";
    case VESSEL_CHANNELS_FULL: return "Sixty-four channels stand already";
    case VESSEL_NO_SUCH_END: return "The sender or the receiver is not a node added so far";
    case VESSEL_NOTHING_TO_START: return "There is no node, or no channel";
    case VESSEL_TOO_FEW_SLOTS: return "The slots of all nodes together are not more than the channels";
    case VESSEL_NOT_STARTED: return "The ring has not started";
    case VESSEL_NO_SUCH_CHANNEL: return "There is no channel of this number";
    case VESSEL_NOT_RESTING: return "The channel is not resting";
    case VESSEL_BATCH_NUMBER_ZERO: return "The record's batch number is 0";
    case VESSEL_TEMPERATURE_OUT_OF_RANGE: return "The temperature is not -40 to 120 degrees";
    case VESSEL_NAME_TOO_LONG: return "The record's name length is over 32";
    case VESSEL_BAD_NAME: return "A byte of the record's name is not hexadecimal 20 to 7E, or a byte after the name is not 0";
    case VESSEL_ALREADY_OFFERED: return "A record is already offered on the channel";
    case VESSEL_NO_SUCH_NODE: return "There is no node of this number";
    case VESSEL_LINE_EMPTY: return "The node's line is empty";
    case VESSEL_NO_FREE_SLOT: return "The node has no free slot";
    case VESSEL_BUFFER_EMPTY: return "The node's buffer is empty";
    case VESSEL_NEXT_BUFFER_FULL: return "The message goes on past the next node, and that node has no free slot";
    case VESSEL_TURN_MARK_SET: return "The message goes on past the next node, and that node's turn mark is set";
    case VESSEL_UNKNOWN_COMMAND: return "The command byte is unknown";
    case VESSEL_COMMAND_CUT: return "Fewer bytes are left than the command is wide";
    case VESSEL_PLACE_BEYOND_END: return "The place is beyond the length of the bytes";
    case VESSEL_UNSOUND_RING: return "The ring handed in is not sound; or the history table";
    case VESSEL_NO_ROOM_TO_WRITE: return "There are fewer bytes from the place on than the command is wide";
    case VESSEL_NOT_ASKING: return "The channel is not asking";
    case VESSEL_REQUEST_IN_BUFFER: return "The channel's request is in a buffer";
    case VESSEL_NO_EMPTY_ROW: return "The batch has no row in the history table, and no row is empty";
    case VESSEL_BLANK_END: return "The record's name begins or ends with a blank (hexadecimal 20)";
    }
    return "There is no refusal of this number";
}

/* What is under way on a channel, in a word. */
static inline const char *vessel_phase_text(uint8_t phase)
{
    if (phase > VESSEL_ANSWERING)
        return "no phase";
    switch ((enum vessel_phase)phase) {
    case VESSEL_RESTING: return "resting";
    case VESSEL_ASKING: return "asking";
    case VESSEL_READY: return "ready";
    case VESSEL_ANSWERING: return "answering";
    }
    return "no phase";
}

#ifdef __cplusplus
}
#define VESSEL_HOLDS(what) static_assert(what, #what)
#else
#define VESSEL_HOLDS(what) _Static_assert(what, #what)
#endif
#define VESSEL_AT(type, field, place) VESSEL_HOLDS(offsetof(struct type, field) == place)

VESSEL_HOLDS(sizeof(struct vessel_ring) == 7496);
VESSEL_AT(vessel_ring, deliveries, 0);
VESSEL_AT(vessel_ring, started, 4);
VESSEL_AT(vessel_ring, node_count, 5);
VESSEL_AT(vessel_ring, channel_count, 6);
VESSEL_AT(vessel_ring, spare, 7);
VESSEL_AT(vessel_ring, capacity, 8);
VESSEL_AT(vessel_ring, used, 24);
VESSEL_AT(vessel_ring, waiting, 40);
VESSEL_AT(vessel_ring, marks, 56);
VESSEL_AT(vessel_ring, senders, 72);
VESSEL_AT(vessel_ring, receivers, 136);
VESSEL_AT(vessel_ring, phases, 200);
VESSEL_AT(vessel_ring, offered, 264);
VESSEL_AT(vessel_ring, slots, 328);
VESSEL_AT(vessel_ring, lines, 1352);
VESSEL_AT(vessel_ring, offers, 2376);
VESSEL_AT(vessel_ring, carried, 4936);

VESSEL_HOLDS(sizeof(struct vessel_record) == 40);
VESSEL_AT(vessel_record, batch, 0);
VESSEL_AT(vessel_record, vessel, 4);
VESSEL_AT(vessel_record, name_length, 5);
VESSEL_AT(vessel_record, temperature, 6);
VESSEL_AT(vessel_record, name, 8);

VESSEL_HOLDS(sizeof(struct vessel_delivery) == 44);
VESSEL_AT(vessel_delivery, refusal, 0);
VESSEL_AT(vessel_delivery, delivered, 1);
VESSEL_AT(vessel_delivery, channel, 2);
VESSEL_AT(vessel_delivery, record, 4);

VESSEL_HOLDS(sizeof(struct vessel_dispatched) == 2628);
VESSEL_AT(vessel_dispatched, rounds, 0);
VESSEL_AT(vessel_dispatched, refusal, 2);
VESSEL_AT(vessel_dispatched, count, 3);
VESSEL_AT(vessel_dispatched, channels, 4);
VESSEL_AT(vessel_dispatched, records, 68);

VESSEL_HOLDS(sizeof(struct vessel_hops) == 2);
VESSEL_AT(vessel_hops, refusal, 0);
VESSEL_AT(vessel_hops, hops, 1);

VESSEL_HOLDS(sizeof(struct vessel_waiting) == 16);
VESSEL_AT(vessel_waiting, set, 0);
VESSEL_AT(vessel_waiting, tasks, 8);
VESSEL_AT(vessel_waiting, refusal, 12);

VESSEL_HOLDS(sizeof(struct vessel_row) == 56);
VESSEL_AT(vessel_row, batch, 0);
VESSEL_AT(vessel_row, count, 4);
VESSEL_AT(vessel_row, readings, 8);

VESSEL_HOLDS(sizeof(struct vessel_figures) == 12);
VESSEL_AT(vessel_figures, sum, 0);
VESSEL_AT(vessel_figures, lowest, 4);
VESSEL_AT(vessel_figures, highest, 6);
VESSEL_AT(vessel_figures, refusal, 8);
VESSEL_AT(vessel_figures, held, 9);

VESSEL_HOLDS(sizeof(struct vessel_row_batch) == 8);
VESSEL_AT(vessel_row_batch, batch, 0);
VESSEL_AT(vessel_row_batch, refusal, 4);

VESSEL_HOLDS(sizeof(struct vessel_command) == 44);
VESSEL_AT(vessel_command, code, 0);
VESSEL_AT(vessel_command, first, 1);
VESSEL_AT(vessel_command, second, 2);
VESSEL_AT(vessel_command, record, 4);

VESSEL_HOLDS(sizeof(struct vessel_reading) == 56);
VESSEL_AT(vessel_reading, next, 0);
VESSEL_AT(vessel_reading, refusal, 8);
VESSEL_AT(vessel_reading, end, 9);
VESSEL_AT(vessel_reading, command, 12);

VESSEL_HOLDS(sizeof(struct vessel_writing) == 16);
VESSEL_AT(vessel_writing, next, 0);
VESSEL_AT(vessel_writing, refusal, 8);

#undef VESSEL_AT
#undef VESSEL_HOLDS

#endif

/* A program with no C library at all, for x86-64 Linux: memcpy, memmove and memset are its own, and the vessel ring's library links with
   these. It carries a record, lists a tape and turns a ring and a table, and ends with 0 where all is as it should be. */
#include "vessel_ring.h"

void *memcpy(void *to, const void *from, size_t length);
void *memmove(void *to, const void *from, size_t length);
void *memset(void *to, int byte, size_t length);
int run(void);

/* By volatile, so that the compiler makes no call of memcpy of the loop in it. */
static void copy(volatile uint8_t *to, const volatile uint8_t *from, size_t length)
{
    size_t i;
    for (i = 0; i < length; i++)
        to[i] = from[i];
}

void *memcpy(void *to, const void *from, size_t length)
{
    copy((volatile uint8_t *)to, (const volatile uint8_t *)from, length);
    return to;
}

void *memmove(void *to, const void *from, size_t length)
{
    volatile uint8_t *last = (volatile uint8_t *)to;
    const volatile uint8_t *source = (const volatile uint8_t *)from;
    if ((uintptr_t)to <= (uintptr_t)from)
        return memcpy(to, from, length);
    for (; length > 0; length--)
        last[length - 1] = source[length - 1];
    return to;
}

void *memset(void *to, int byte, size_t length)
{
    volatile uint8_t *cells = (volatile uint8_t *)to;
    size_t i;
    for (i = 0; i < length; i++)
        cells[i] = (uint8_t)byte;
    return to;
}

static struct vessel_ring ring = VESSEL_RING_FRESH;
static struct vessel_row table[VESSEL_HISTORY_ROWS] = VESSEL_TABLE_EMPTY;

static int carries(void)
{
    struct vessel_record record;
    struct vessel_dispatched answer;
    if (vessel_ring_add_node(&ring, 1) || vessel_ring_add_node(&ring, 2) || vessel_ring_add_channel(&ring, 1, 0) || vessel_ring_start(&ring))
        return 0;
    if (vessel_record_make(&record, 7, 3, 612, "A1") || vessel_ring_send(&ring, 0, record) || vessel_ring_receive(&ring, 0))
        return 0;
    if (vessel_ring_to_hundredths(&ring) || vessel_ring_offer(&ring, 0).temperature != 6120)
        return 0;
    answer = vessel_ring_dispatch(&ring, vessel_rounds_enough(&ring));
    if (answer.count != 1 || vessel_history_note(table, VESSEL_ROWS(table), answer.records[0]))
        return 0;
    return vessel_history_figures(table, VESSEL_ROWS(table), 7).sum == 6120 && vessel_history_to_hundredths(table, VESSEL_ROWS(table)) == 25;
}

static int lists(void)
{
    static const char expected[] = "1 10 0\n2 12 6\nend 1 1\n";
    static uint8_t tape[8], out[512];
    struct vessel_command command = {0x10, 1, 0, {0, 0, 0, 0, {0}}};
    size_t i, length = vessel_tape_write(tape, sizeof tape, 0, command).next;
    command.code = 0x12;
    length = vessel_tape_write(tape, sizeof tape, length, command).next;
    if (vessel_tape_read(tape, length, 2).command.code != 0x12 || vessel_ring_list(tape, length, out, sizeof out) != sizeof expected - 1)
        return 0;
    for (i = 0; i < sizeof expected - 1; i++)
        if (out[i] != (uint8_t)expected[i])
            return 0;
    return 1;
}

int run(void)
{
    return !(vessel_version() == VESSEL_VERSION && carries() && lists());
}

/* Where the system begins: the stack aligned, and the answer of `run` given to exit. */
__asm__(".globl _start\n_start:\n    xor %ebp, %ebp\n    and $-16, %rsp\n    call run\n    mov %eax, %edi\n    mov $60, %eax\n    syscall\n");

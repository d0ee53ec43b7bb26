/*
 * Brings a device up through its registers, as a driver does, uses a queue pair and takes everything down again. Each step prints
 * a line: what was asked, the number returned, the bursts moved, and what is found afterwards.
 */
#include "bar.h"

#include <stdio.h>
#include <string.h>

/* Logarithms 3, 2, 1, 2: eight queue pairs of 256 bytes, then four completion queues, two event queues and four MPTs of 64. */
#define CQS (8 * 256)
#define EQS (CQS + 4 * 64)
#define MPTS (EQS + 2 * 64)
#define STORE_BYTES (MPTS + 4 * 64)

#define QP 5u
#define CQ 2u
#define EQ 1u
#define MPT 3u

#define MAILBOX 0x100000000u /* any addresses: the register file looks them up */
#define REPLY 0x100001000u

static uint8_t device[ECGSLOPE_DEVICE_BYTES], store[STORE_BYTES], room[ECGSLOPE_ROOM_BYTES];
static uint8_t mailbox[256], reply[256];
static struct bar bar;

/* Mailboxes and records have big-endian words. */
static void put(size_t offset, uint32_t word)
{
    for (size_t i = 0; i < 4; i++)
        mailbox[offset + i] = (uint8_t)(word >> (24 - 8 * i));
}

static uint32_t get(const uint8_t *bytes, size_t offset)
{
    return (uint32_t)bytes[offset] << 24 | (uint32_t)bytes[offset + 1] << 16 | (uint32_t)bytes[offset + 2] << 8 | bytes[offset + 3];
}

static void line(const char *what, uint32_t number, const char *found)
{
    printf("%-36s 0x%02x  bursts %2u  %s\n", what, (unsigned)number, (unsigned)bar.bursts, found);
}

/* A command by the register: six words, then the last one with go, which starts it; then the status once go is clear. */
static uint32_t command_with(uint32_t flags, uint32_t op, uint32_t op_modifier, uint32_t in_modifier)
{
    static uint32_t token;
    uint32_t word;

    bar_write(&bar, BAR_HCR + 0x00, (uint32_t)((uint64_t)MAILBOX >> 32));
    bar_write(&bar, BAR_HCR + 0x04, (uint32_t)MAILBOX);
    bar_write(&bar, BAR_HCR + 0x08, in_modifier);
    bar_write(&bar, BAR_HCR + 0x0c, (uint32_t)((uint64_t)REPLY >> 32));
    bar_write(&bar, BAR_HCR + 0x10, (uint32_t)REPLY);
    bar_write(&bar, BAR_HCR + 0x14, ++token << 16);
    bar_write(&bar, BAR_HCR_LAST, flags | op_modifier << 12 | op);
    do
        word = bar_read(&bar, BAR_HCR_LAST);
    while ((word & BAR_GO) != 0);
    return word >> 24;
}

static uint32_t command(uint32_t op, uint32_t op_modifier, uint32_t in_modifier)
{
    return command_with(BAR_GO, op, op_modifier, in_modifier);
}

static void on_adapter(const char *what, uint32_t number)
{
    line(what, number, device[0] == 1 ? "the adapter is open" : "the adapter is closed");
}

/* A command on a completion queue, an event queue or an MPT, and who owns its record then: byte 63 is 1 for the hardware. */
static void on_record(const char *what, uint32_t op, uint32_t index, size_t table)
{
    uint32_t number = command(op, 0, index);

    line(what, number, store[table + 64 * index + 63] == 1 ? "the hardware's" : "the software's");
}

/* A command on the queue pair, and the state that an engine finds it in then. */
static void on_qp(const char *what, uint32_t op, uint32_t op_modifier)
{
    static const char *const states[] = { "RESET", "INIT", "RTR", "RTS", "SQE", "SQD", "ERR" };
    uint32_t number = command(op, op_modifier, QP);
    uint32_t bursts = bar.bursts;
    uint8_t state = 0xff;
    size_t len;

    bar_engine(&bar, ECGSLOPE_READ_STATE, QP, 0, 0, &state, 1, &len);
    bar.bursts = bursts;
    line(what, number, state <= ECGSLOPE_ERR ? states[state] : "not readable");
}

static void queues_up(void)
{
    memset(mailbox, 0xd3, sizeof mailbox);
    on_record("SW2HW_MPT 3", ECGSLOPE_SW2HW_MPT, MPT, MPTS);

    memset(mailbox, 0xe1, sizeof mailbox);
    on_record("SW2HW_EQ 1", ECGSLOPE_SW2HW_EQ, EQ, EQS);

    memset(mailbox, 0xc2, sizeof mailbox);
    put(0x10, EQ); /* the event queue that it reports to */
    put(0x2c, CQ); /* its own number */
    on_record("SW2HW_CQ 2", ECGSLOPE_SW2HW_CQ, CQ, CQS);
    on_record("SW2HW_CQ 2, a second time", ECGSLOPE_SW2HW_CQ, CQ, CQS);
}

static void queue_pair_up(void)
{
    memset(mailbox, 0, sizeof mailbox); /* service type 0: RC */
    put(0x70, CQ);                      /* the completion queue of its send queue */
    on_qp("2ERR_QP 5, still in RESET", ECGSLOPE_2ERR_QP, 3);
    on_qp("RST2INIT_QP 5", ECGSLOPE_RST2INIT_QP, 0);
    on_qp("RTR2RTS_QP 5, too early", ECGSLOPE_RTR2RTS_QP, 0);

    put(0x04, 0x12345678); /* INIT2RTR takes words 04h to 4Ch, and the PSN expected from the other side */
    put(0x84, 0x07000010);
    on_qp("INIT2RTR_QP 5", ECGSLOPE_INIT2RTR_QP, 0);

    put(0x6c, 0x100); /* RTR2RTS takes the PSNs of its own side */
    put(0x7c, 0x0ff);
    on_qp("RTR2RTS_QP 5", ECGSLOPE_RTR2RTS_QP, 0);

    on_qp("QUERY_QP 5", ECGSLOPE_QUERY_QP, 0);
    printf("    word 00h %08x, 04h %08x, 6Ch %08x, 70h %08x, 7Ch %08x, 84h %08x\n", (unsigned)get(reply, 0x00),
           (unsigned)get(reply, 0x04), (unsigned)get(reply, 0x6c), (unsigned)get(reply, 0x70), (unsigned)get(reply, 0x7c),
           (unsigned)get(reply, 0x84));
}

static void engines(void)
{
    uint8_t out[ECGSLOPE_ANSWER_BYTES] = { 0 };
    char found[128];
    size_t len;
    uint32_t number;

    number = bar_engine(&bar, ECGSLOPE_READ_STATE, QP, 0, 0, out, sizeof out, &len);
    snprintf(found, sizeof found, "%zu byte: state %u", len, out[0]);
    line("engine request 1, read state", number, found);

    number = bar_engine(&bar, ECGSLOPE_WRITE_NEXT_PSN, QP, 0x101, ECGSLOPE_RTS, out, sizeof out, &len);
    snprintf(found, sizeof found, "%zu bytes", len);
    line("engine request 3, write next PSN", number, found);

    number = bar_engine(&bar, ECGSLOPE_READ_NEXT_PSN, QP, 0, 0, out, sizeof out, &len);
    snprintf(found, sizeof found, "%zu bytes: state %u, PSN 0x%06x", len, out[0], (unsigned)(get(out, 0) & 0xffffff));
    line("engine request 2, read next PSN", number, found);

    number = bar_engine(&bar, ECGSLOPE_WRITE_NEXT_PSN, QP, 0x102, ECGSLOPE_SQE, out, sizeof out, &len);
    line("engine request 3, RTS to SQE of RC", number, "SQE is for the other service types");

    number = bar_engine(&bar, ECGSLOPE_READ_ALL, QP, 0, 0, out, sizeof out, &len);
    snprintf(found, sizeof found, "%zu bytes: word 6Ch %08x", len, (unsigned)get(out, 0x6c));
    line("engine request 6, read all", number, found);

    number = bar_engine(&bar, ECGSLOPE_READ_JOINED, QP, 0, 0, out, sizeof out, &len);
    snprintf(found, sizeof found, "%zu bytes: completion queue %u, event queue %u, its word 00h %08x", len,
             (unsigned)get(out, 0x70), (unsigned)get(out, 256 + 0x10), (unsigned)get(out, 320));
    line("engine request 7, read joined", number, found);
}

static void all_down(void)
{
    on_qp("2ERR_QP 5", ECGSLOPE_2ERR_QP, 3);
    on_qp("2RST_QP 5", ECGSLOPE_2RST_QP, 3);
    on_record("HW2SW_CQ 2", ECGSLOPE_HW2SW_CQ, CQ, CQS);
    on_record("HW2SW_EQ 1", ECGSLOPE_HW2SW_EQ, EQ, EQS);
    on_record("HW2SW_MPT 3", ECGSLOPE_HW2SW_MPT, MPT, MPTS);
    on_adapter("CLOSE_HCA", command(ECGSLOPE_CLOSE_HCA, 0, 0));
}

int main(void)
{
    struct ecgslope_lent lent = {
        .device = device, .device_len = sizeof device, .store = store,
        .store_len = sizeof store, .room = room, .room_len = sizeof room,
    };

    bar_start(&bar, &lent);
    bar_lend(&bar, MAILBOX, mailbox, sizeof mailbox);
    bar_lend(&bar, REPLY, reply, sizeof reply);

    bar_write(&bar, BAR_RESET, 1);
    on_adapter("reset", bar_read(&bar, BAR_RESET));
    on_adapter("NOP", command(ECGSLOPE_NOP, 0, 0));
    on_adapter("NOP, an event asked for", command_with(BAR_GO | BAR_EVENT, ECGSLOPE_NOP, 0, 0));
    on_adapter("QUERY_QP 5, before INIT_HCA", command(ECGSLOPE_QUERY_QP, 0, QP));
    on_adapter("MAD_IFC, which is not served", command(0x24, 0, 0));

    mailbox[0x0f] = 3; /* the logarithms: queue pairs, completion queues, event queues, MPTs */
    mailbox[0x17] = 2;
    mailbox[0x1f] = 1;
    mailbox[0x37] = 2;
    on_adapter("INIT_HCA 3 2 1 2", command(ECGSLOPE_INIT_HCA, 0, 0));

    queues_up();
    queue_pair_up();
    engines();
    all_down();
    return 0;
}

// SPDX-License-Identifier: GPL-2.0-or-later
#include "sequence.h"

#include "../registers.h"

#include <ecgslope.h>

#define QP 5u
#define CQ 2u
#define EQ 1u
#define MPT 3u

#define NO_ANSWER 0x100u             /* go stayed set: no status is as large */
#define NOWHERE 0x00f0000000000000ull /* no memory has this address */
#define POLLS 20000                  /* about a second */
#define TRIES 2000

/* One line for each step. */
static void expect(struct guest *guest, const char *what, uint32_t got, uint32_t want)
{
    guest->steps++;
    if (got == want) {
        guest_say("%s: 0x%02x", what, got);
    } else {
        guest->wrong++;
        guest_say("%s: 0x%02x, WRONG, 0x%02x is right", what, got, want);
    }
}

/* Mailboxes and records have big-endian words. */
static void put_word(uint8_t *bytes, size_t offset, uint32_t word)
{
    for (size_t i = 0; i < 4; i++)
        bytes[offset + i] = (uint8_t)(word >> (24 - 8 * i));
}

/* Writes the seven words, the last one with go. */
static void begin(struct guest *guest, uint64_t in, uint64_t out, uint32_t index, uint32_t token, uint32_t last)
{
    guest_put(guest, BAR_HCR + 0x00, (uint32_t)(in >> 32));
    guest_put(guest, BAR_HCR + 0x04, (uint32_t)in);
    guest_put(guest, BAR_HCR + 0x08, index);
    guest_put(guest, BAR_HCR + 0x0c, (uint32_t)(out >> 32));
    guest_put(guest, BAR_HCR + 0x10, (uint32_t)out);
    guest_put(guest, BAR_HCR + 0x14, token);
    guest_put(guest, BAR_HCR_LAST, last);
}

/* Polls until go is clear, and hands back the status. */
static uint32_t end(struct guest *guest)
{
    for (unsigned int i = 0; i < POLLS; i++) {
        uint32_t last = guest_get(guest, BAR_HCR_LAST);

        if ((last & BAR_GO) == 0)
            return last >> 24;
        guest->seen++;
        if (i > 20)
            guest_pause();
    }
    return NO_ANSWER;
}

/* A command, tried again while the device's own engines hold what it is about. */
static uint32_t run(struct guest *guest, uint64_t in, uint64_t out, uint32_t index, uint32_t token, uint32_t last)
{
    uint32_t status = NO_ANSWER;

    for (unsigned int i = 0; i < TRIES; i++) {
        begin(guest, in, out, index, token, last);
        status = end(guest);
        if (status != ECGSLOPE_BUSY || !guest->traffic)
            return status;
        guest->busy++;
        guest_pause();
    }
    return status;
}

static uint32_t command(struct guest *guest, uint32_t op, uint32_t op_modifier, uint32_t index)
{
    static uint32_t token;

    return run(guest, guest->in_address, guest->out_address, index, ++token << 16, BAR_GO | op_modifier << 12 | op);
}

/* Every register but the command register reads 0, and that too after a reset. */
static void registers_are_zero(struct guest *guest, const char *what)
{
    static const uint32_t offsets[] = { 0, 4, BAR_HCR - 4, BAR_HCR + 0x1c, BAR_RESET - 4, BAR_RESET, BAR_RESET + 4, BAR0_BYTES - 4 };
    uint32_t all = 0;

    for (size_t i = 0; i < sizeof offsets / sizeof offsets[0]; i++)
        all |= guest_get(guest, offsets[i]);
    for (uint32_t i = 0; i < BAR_HCR_WORDS; i++)
        all |= guest_get(guest, BAR_HCR + 4 * i);
    expect(guest, what, all, 0);
}

/* Registers that are not well formed, and commands that a closed adapter does not do. */
static void bad_registers(struct guest *guest)
{
    const uint32_t nop = BAR_GO | ECGSLOPE_NOP;

    expect(guest, "NOP", command(guest, ECGSLOPE_NOP, 0, 0), ECGSLOPE_OK);
    expect(guest, "NOP, an event asked for", run(guest, 0, 0, 0, 0, nop | BAR_EVENT), ECGSLOPE_BAD_PARAMETER);
    expect(guest, "NOP, bit 20 of word 18h", run(guest, 0, 0, 0, 0, nop | 1u << 20), ECGSLOPE_BAD_PARAMETER);
    expect(guest, "NOP, a status written", run(guest, 0, 0, 0, 0, nop | 1u << 24), ECGSLOPE_BAD_PARAMETER);
    expect(guest, "NOP, bit 0 of word 14h", run(guest, 0, 0, 0, 1, nop), ECGSLOPE_BAD_PARAMETER);
    expect(guest, "NOP, op_modifier 1", run(guest, 0, 0, 0, 0, nop | 1u << 12), ECGSLOPE_BAD_PARAMETER);
    expect(guest, "NOP, in_modifier 1", run(guest, 0, 0, 1, 0, nop), ECGSLOPE_BAD_PARAMETER);
    expect(guest, "the last word: other fields stay", guest_get(guest, BAR_HCR_LAST), 0x03000000u | ECGSLOPE_NOP);
    expect(guest, "MAD_IFC, not served", command(guest, 0x24, 0, 0), ECGSLOPE_NOT_SERVED);
    expect(guest, "QUERY_QP, closed", command(guest, ECGSLOPE_QUERY_QP, 0, QP), ECGSLOPE_BAD_SYSTEM_STATE);
}

static void open_adapter(struct guest *guest)
{
    const uint32_t init = BAR_GO | ECGSLOPE_INIT_HCA;

    memset(guest->in, 0, GUEST_PAGE);
    guest->in[0x0f] = 15; /* the logarithms: queue pairs, 14 at most */
    expect(guest, "INIT_HCA, too many queue pairs", command(guest, ECGSLOPE_INIT_HCA, 0, 0), ECGSLOPE_BAD_PARAMETER);
    expect(guest, "INIT_HCA, mailbox not readable", run(guest, NOWHERE, 0, 0, 0, init), ECGSLOPE_BAD_LENGTH);
    expect(guest, "INIT_HCA, mailbox at the last address", run(guest, ~0ull - 7, 0, 0, 0, init), ECGSLOPE_BAD_LENGTH);
    guest->in[0x0f] = 3;
    guest->in[0x17] = 2; /* completion queues */
    guest->in[0x1f] = 1; /* event queues */
    guest->in[0x37] = 2; /* MPTs */
    expect(guest, "INIT_HCA 3 2 1 2", command(guest, ECGSLOPE_INIT_HCA, 0, 0), ECGSLOPE_OK);
    expect(guest, "INIT_HCA, already open", command(guest, ECGSLOPE_INIT_HCA, 0, 0), ECGSLOPE_BAD_SYSTEM_STATE);
}

static void queues_up(struct guest *guest)
{
    memset(guest->in, 0xe1, GUEST_PAGE);
    expect(guest, "SW2HW_EQ 1", command(guest, ECGSLOPE_SW2HW_EQ, 0, EQ), ECGSLOPE_OK);
    memset(guest->in, 0xd3, GUEST_PAGE);
    expect(guest, "SW2HW_MPT 3", command(guest, ECGSLOPE_SW2HW_MPT, 0, MPT), ECGSLOPE_OK);
    memset(guest->in, 0xc2, GUEST_PAGE);
    put_word(guest->in, 0x10, EQ);     /* the event queue that it reports to */
    put_word(guest->in, 0x2c, CQ + 1); /* its own number */
    expect(guest, "SW2HW_CQ 2, mailbox of another", command(guest, ECGSLOPE_SW2HW_CQ, 0, CQ), ECGSLOPE_BAD_PARAMETER);
    put_word(guest->in, 0x2c, CQ);
    expect(guest, "SW2HW_CQ 2", command(guest, ECGSLOPE_SW2HW_CQ, 0, CQ), ECGSLOPE_OK);
    expect(guest, "SW2HW_CQ 2, a second time", command(guest, ECGSLOPE_SW2HW_CQ, 0, CQ), ECGSLOPE_NOT_PERMITTED);
}

/* QUERY_QP, and how many bytes of the answer and of the page behind it are not what they should be. */
static uint32_t differing(struct guest *guest)
{
    uint32_t differ = 0;

    memset(guest->out, 0x5a, GUEST_PAGE);
    expect(guest, "QUERY_QP 5", command(guest, ECGSLOPE_QUERY_QP, 0, QP), ECGSLOPE_OK);
    for (size_t i = 0; i < GUEST_PAGE; i++) {
        bool psn = (i >= 0x6d && i <= 0x6f) || (i >= 0x7d && i <= 0x7f) || (i >= 0x85 && i <= 0x87);

        /* The engines write the PSNs of a queue pair that is up, and nothing else. */
        if (guest->traffic && psn && guest->record[0] != 0)
            continue;
        differ += guest->out[i] != (i < sizeof guest->record ? guest->record[i] : 0x5a);
    }
    return differ;
}

/* An edge from a mailbox image of its own, at a place in the two pages; the words that it takes come into the record expected. */
static void edge(struct guest *guest, const char *what, uint32_t op, uint32_t state, size_t at, const uint8_t *taken)
{
    uint8_t *image = guest->in + at;

    memset(guest->in, 0xff, 2 * GUEST_PAGE);
    for (size_t i = 0; i < ECGSLOPE_QP_MAILBOX_BYTES; i++)
        image[i] = (uint8_t)(op * 16 + i * 7);
    image[1] = 0;                /* service type RC */
    put_word(image, 0x70, CQ);   /* the completion queue of its send queue */
    for (; taken[0] <= taken[1]; taken += 2)
        memcpy(guest->record + taken[0], image + taken[0], (size_t)(taken[1] + 4 - taken[0]));
    guest->record[0] = (uint8_t)(state << 4 | (guest->record[0] & 0xf));
    expect(guest, what, run(guest, guest->in_address + at, 0, QP, 0, BAR_GO | op), ECGSLOPE_OK);
    expect(guest, "the record: bytes that differ", differing(guest), 0);
}

static void queue_pair_up(struct guest *guest)
{
    /* First and last word of each part that is taken; ended by a part whose first comes after its last. */
    static const uint8_t all[] = { 0x00, 0xa0, 1, 0 }, to_rtr[] = { 0x04, 0x4c, 0x84, 0x84, 1, 0 };
    static const uint8_t to_rts[] = { 0x20, 0x28, 0x6c, 0x6c, 0x7c, 0x7c, 1, 0 };

    memset(guest->record, 0, sizeof guest->record);
    edge(guest, "RST2INIT_QP 5", ECGSLOPE_RST2INIT_QP, ECGSLOPE_INIT, 0, all);
    expect(guest, "RTR2RTS_QP 5, too early", command(guest, ECGSLOPE_RTR2RTS_QP, 0, QP), ECGSLOPE_NOT_PERMITTED);
    edge(guest, "INIT2RTR_QP 5, mailbox over two pages", ECGSLOPE_INIT2RTR_QP, ECGSLOPE_RTR, GUEST_PAGE - 80, to_rtr);
    edge(guest, "RTR2RTS_QP 5", ECGSLOPE_RTR2RTS_QP, ECGSLOPE_RTS, 1000, to_rts);
}

/* A register that is written while go is set: the write is dropped. */
static void written_while_go(struct guest *guest)
{
    uint32_t found = 0;
    bool met = false;

    for (unsigned int i = 0; i < TRIES && !met; i++) {
        begin(guest, 0, guest->out_address, QP, 0, BAR_GO | ECGSLOPE_QUERY_QP);
        for (uint32_t word = 0; word < BAR_HCR_WORDS; word++)
            guest_put(guest, BAR_HCR + 4 * word, 0xffffffff);
        found = guest_get(guest, BAR_HCR + 8);
        met = (guest_get(guest, BAR_HCR_LAST) & BAR_GO) != 0;
        end(guest);
    }
    expect(guest, "written while go is set: met", met, 1);
    expect(guest, "written while go is set: in_modifier", found, QP);
    expect(guest, "written while go is set: status and op", guest_get(guest, BAR_HCR_LAST), ECGSLOPE_QUERY_QP);
}

/* The engines' writes are seen: a PSN is another than the driver gave. */
static void engines_write(struct guest *guest)
{
    bool met = false;

    for (unsigned int i = 0; i < TRIES && !met; i++) {
        run(guest, 0, guest->out_address, QP, 0, BAR_GO | ECGSLOPE_QUERY_QP);
        met = memcmp(guest->out + 0x6c, guest->record + 0x6c, 4) != 0;
        for (unsigned int j = 0; j < 10 && !met; j++)
            guest_pause(); /* no command holds the record */
    }
    expect(guest, "the engines wrote a PSN", met, guest->traffic);
}

static void refused_queries(struct guest *guest)
{
    uint32_t differ = 0;

    memset(guest->out, 0x5a, GUEST_PAGE);
    expect(guest, "QUERY_QP 8, no such queue pair", command(guest, ECGSLOPE_QUERY_QP, 0, 8), ECGSLOPE_BAD_PARAMETER);
    for (size_t i = 0; i < GUEST_PAGE; i++)
        differ += guest->out[i] != 0x5a;
    expect(guest, "bytes that a refused query wrote", differ, 0);
    expect(guest, "QUERY_QP 5, answer not writable", run(guest, 0, NOWHERE, QP, 0, BAR_GO | ECGSLOPE_QUERY_QP), ECGSLOPE_OK);
}

static void queue_pair_down(struct guest *guest)
{
    expect(guest, "2ERR_QP 5", command(guest, ECGSLOPE_2ERR_QP, 3, QP), ECGSLOPE_OK);
    guest->record[0] = (uint8_t)(ECGSLOPE_ERR << 4 | (guest->record[0] & 0xf));
    expect(guest, "the record: bytes that differ", differing(guest), 0);
    expect(guest, "RTS2RTS_QP 5, in ERR", command(guest, ECGSLOPE_RTS2RTS_QP, 0, QP), ECGSLOPE_NOT_PERMITTED);
    expect(guest, "2RST_QP 5", command(guest, ECGSLOPE_2RST_QP, 3, QP), ECGSLOPE_OK);
    memset(guest->record, 0, sizeof guest->record);
    expect(guest, "2ERR_QP 5, in RESET", command(guest, ECGSLOPE_2ERR_QP, 3, QP), ECGSLOPE_NOT_PERMITTED);
    expect(guest, "the record: bytes that differ", differing(guest), 0);
}

static void all_down(struct guest *guest)
{
    expect(guest, "HW2SW_CQ 2", command(guest, ECGSLOPE_HW2SW_CQ, 0, CQ), ECGSLOPE_OK);
    expect(guest, "HW2SW_EQ 1", command(guest, ECGSLOPE_HW2SW_EQ, 0, EQ), ECGSLOPE_OK);
    expect(guest, "HW2SW_MPT 3", command(guest, ECGSLOPE_HW2SW_MPT, 0, MPT), ECGSLOPE_OK);
    expect(guest, "CLOSE_HCA", command(guest, ECGSLOPE_CLOSE_HCA, 0, 0), ECGSLOPE_OK);
    expect(guest, "QUERY_QP, closed", command(guest, ECGSLOPE_QUERY_QP, 0, QP), ECGSLOPE_BAD_SYSTEM_STATE);
}

/* The reset register, with a queue pair up and a command under way; values other than 1 do nothing. */
static void reset_register(struct guest *guest)
{
    guest_put(guest, BAR_RESET, 0);
    guest_put(guest, BAR_RESET, 2);
    expect(guest, "the record: bytes that differ", differing(guest), 0);
    begin(guest, 0, guest->out_address, QP, 0, BAR_GO | ECGSLOPE_QUERY_QP);
    guest_put(guest, BAR_RESET, 1);
    registers_are_zero(guest, "reset with a command under way: registers");
    expect(guest, "QUERY_QP, closed by reset", command(guest, ECGSLOPE_QUERY_QP, 0, QP), ECGSLOPE_BAD_SYSTEM_STATE);
}

bool sequence_run(struct guest *guest)
{
    guest_put(guest, BAR_RESET, 1);
    registers_are_zero(guest, "reset: registers");
    bad_registers(guest);
    for (int round = 0; round < 2; round++) {
        open_adapter(guest);
        queues_up(guest);
        queue_pair_up(guest);
        written_while_go(guest);
        refused_queries(guest);
        if (guest->traffic)
            engines_write(guest);
        if (round == 0) {
            reset_register(guest);
        } else {
            queue_pair_down(guest);
            all_down(guest);
        }
    }
    expect(guest, "go was seen to be set", guest->seen > 0, 1);
    guest_say("%u steps, %u wrong; go was seen set %u times, %u commands were tried again", guest->steps, guest->wrong, guest->seen,
              guest->busy);
    return guest->wrong == 0;
}

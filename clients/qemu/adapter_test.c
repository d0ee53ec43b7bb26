// SPDX-License-Identifier: GPL-2.0-or-later
/*
 * adapter_test TRACE: the adapter without a virtual machine, with guest memory of which a page is missing. First what a driver in a guest
 * cannot arrange: which memory is read and written, and when. Then drivers that send commands at random, with traffic: a command that is
 * refused because of what is under way is tried again and has to get through once the engines' requests have ended. The trace of the
 * last driver is for `replay`.
 */
#include "adapter.h"

#include "random.h"

#include <stdio.h>
#include <string.h>

#define PAGE 4096u
#define BASE 0x100000u /* the guest memory's first address */
#define PAGES 3u       /* of which the second is missing */
#define LOST (BASE + PAGE)
#define THIRD (BASE + 2 * PAGE)
#define STORE_BYTES 2688u
#define DRAINED (7 * 24) /* bursts of seven engine requests of the longest kind */

static uint8_t memory[PAGES * PAGE];
static unsigned reads, writes;
static size_t written; /* bytes of the last write */
static int wrong;
static struct adapter adapter;

static void check(const char *what, uint64_t got, uint64_t want)
{
    if (got != want) {
        printf("%s: 0x%llx, 0x%llx is right\n", what, (unsigned long long)got, (unsigned long long)want);
        wrong = 1;
    }
}

static bool is_there(uint64_t address, size_t len)
{
    return (address >= BASE && address < LOST && len <= LOST - address) ||
           (address >= THIRD && address < THIRD + PAGE && len <= THIRD + PAGE - address);
}

/* The very last page of all addresses can be read, too, and so can the first. */
static bool read_memory(void *owner, uint64_t address, uint8_t *bytes, size_t len)
{
    (void)owner;
    reads++;
    if (is_there(address, len))
        memcpy(bytes, memory + (address - BASE), len);
    else if (address >= 0 - (uint64_t)PAGE || address < PAGE)
        memset(bytes, 0, len);
    else
        return false;
    return true;
}

/* An address past all memory is the adapter's own BAR0, as a driver may name it. */
static bool write_memory(void *owner, uint64_t address, const uint8_t *bytes, size_t len)
{
    struct adapter *own = owner;

    writes++;
    written = len;
    if (address >= 1ull << 32) {
        for (uint32_t i = 0; i + 4 <= len; i += 4)
            adapter_write(own, address - (1ull << 32) + i, 0xffffffff);
        adapter_write(own, BAR_RESET, 1);
    } else if (is_there(address, len)) {
        memcpy(memory + (address - BASE), bytes, len);
    }
    return true;
}

static void start(const char *trace, uint64_t seed, uint64_t traffic)
{
    const struct adapter_options options = {
        .store_len = STORE_BYTES, .in_turn = seed % 2 == 0, .seed = seed, .traffic = traffic, .trace = trace,
    };
    const struct adapter_memory ways = { .read = read_memory, .write = write_memory, .owner = &adapter };

    if (adapter_open(&adapter, &options, &ways) != 0)
        check("the adapter is opened", 0, 1);
    adapter_power_up(&adapter);
}

/* Submits a command, and hands back the last word. */
static uint32_t begin(uint32_t op, uint32_t op_modifier, uint32_t index, uint64_t in, uint64_t out)
{
    const uint32_t words[] = { (uint32_t)(in >> 32), (uint32_t)in, index, (uint32_t)(out >> 32), (uint32_t)out, 0,
                               BAR_GO | op_modifier << 12 | op };

    reads = writes = 0;
    for (uint32_t i = 0; i < BAR_HCR_WORDS; i++)
        adapter_write(&adapter, BAR_HCR + 4 * i, words[i]);
    return adapter_read(&adapter, BAR_HCR_LAST);
}

static uint32_t run(uint32_t op, uint32_t op_modifier, uint32_t index, uint64_t in, uint64_t out)
{
    begin(op, op_modifier, index, in, out);
    while ((adapter_read(&adapter, BAR_HCR_LAST) & BAR_GO) != 0)
        adapter_tick(&adapter);
    return adapter_read(&adapter, BAR_HCR_LAST) >> 24;
}

static void tick(uint32_t ticks)
{
    while (ticks-- > 0)
        adapter_tick(&adapter);
}

static void open_adapter(void)
{
    memset(memory, 0, sizeof memory);
    memory[0x0f] = 3;
    memory[0x17] = 2;
    memory[0x1f] = 1;
    memory[0x37] = 2;
    check("INIT_HCA", run(ECGSLOPE_INIT_HCA, 0, 0, BASE, 0), ECGSLOPE_OK);
}

/* Guest memory is read only for a command that has a mailbox, and only once nothing else is wrong with it. */
static void mailboxes(void)
{
    check("NOP", run(ECGSLOPE_NOP, 0, 0, LOST, 0), ECGSLOPE_OK);
    check("NOP: reads", reads, 0);
    check("INIT_HCA from nowhere", run(ECGSLOPE_INIT_HCA, 0, 0, LOST, 0), ECGSLOPE_BAD_LENGTH);
    open_adapter();
    check("QUERY_QP", run(ECGSLOPE_QUERY_QP, 0, 1, LOST, THIRD), ECGSLOPE_OK);
    check("QUERY_QP: reads", reads, 0);
    check("SW2HW_EQ 2", run(ECGSLOPE_SW2HW_EQ, 0, 2, BASE, 0), ECGSLOPE_BAD_PARAMETER);
    check("SW2HW_EQ 2: reads", reads, 0);
    /* 48 bytes are needed, and so many are there before the page that is missing. */
    check("SW2HW_EQ 0 of 47 bytes", run(ECGSLOPE_SW2HW_EQ, 0, 0, LOST - 47, 0), ECGSLOPE_BAD_LENGTH);
    check("SW2HW_EQ 0 of 48 bytes", run(ECGSLOPE_SW2HW_EQ, 0, 0, LOST - 48, 0), ECGSLOPE_OK);
    check("SW2HW_EQ 0 of 48 bytes: reads", reads, 2);
    check("SW2HW_EQ 1 at the last address", run(ECGSLOPE_SW2HW_EQ, 0, 1, ~0ull, 0), ECGSLOPE_BAD_LENGTH);
    check("SW2HW_EQ 1 at the last address: reads", reads, 1);
}

/* What is written to the command register while go is set is dropped. */
static void written_while_go(void)
{
    begin(ECGSLOPE_QUERY_QP, 0, 1, 0, THIRD);
    for (uint32_t i = 0; i < BAR_HCR_WORDS; i++)
        adapter_write(&adapter, BAR_HCR + 4 * i, 0xffffffff);
    check("written while go: in_modifier", adapter_read(&adapter, BAR_HCR + 8), 1);
    check("written while go: last word", adapter_read(&adapter, BAR_HCR_LAST), BAR_GO | ECGSLOPE_QUERY_QP);
    tick(16);
}

/* An answer is written once, after the last burst and before go is clear. */
static void answers(void)
{
    check("QUERY_QP: go", begin(ECGSLOPE_QUERY_QP, 0, 1, 0, THIRD) & BAR_GO, BAR_GO);
    tick(15);
    check("QUERY_QP, 15 bursts: writes", writes, 0);
    check("QUERY_QP, 15 bursts: last word", adapter_read(&adapter, BAR_HCR_LAST), BAR_GO | ECGSLOPE_QUERY_QP);
    adapter_tick(&adapter);
    check("QUERY_QP: writes", writes, 1);
    check("QUERY_QP: bytes", written, 256);
    check("QUERY_QP: last word", adapter_read(&adapter, BAR_HCR_LAST), ECGSLOPE_QUERY_QP);
    check("no tick is due", adapter_due(&adapter), 0);
    check("QUERY_QP 8", run(ECGSLOPE_QUERY_QP, 0, 8, 0, THIRD), ECGSLOPE_BAD_PARAMETER);
    check("QUERY_QP 8: writes", writes, 0);
}

/* A reset drops the command under way; also one that comes by the write of an answer to our own registers. */
static void resets(void)
{
    begin(ECGSLOPE_QUERY_QP, 0, 1, 0, THIRD);
    adapter_tick(&adapter);
    adapter_write(&adapter, BAR_RESET, 1);
    check("reset: last word", adapter_read(&adapter, BAR_HCR_LAST), 0);
    check("reset: no tick is due", adapter_due(&adapter), 0);
    adapter_tick(&adapter);
    check("reset: writes", writes, 0);
    open_adapter();
    check("QUERY_QP to the registers", run(ECGSLOPE_QUERY_QP, 0, 1, 0, (1ull << 32) + BAR_HCR), 0);
    for (uint32_t i = 0; i < BAR_HCR_WORDS; i++)
        check("reset by an answer: a word", adapter_read(&adapter, BAR_HCR + 4 * i), 0);
    check("reset by an answer: closed", run(ECGSLOPE_QUERY_QP, 0, 1, 0, THIRD), ECGSLOPE_BAD_SYSTEM_STATE);
}

/* A command, tried again after waits of up to so many ticks for as long as it is refused because of what is under way. */
static uint32_t insist(uint64_t *random, uint32_t longest, uint32_t op, uint32_t modifier, uint32_t index, uint64_t in)
{
    uint32_t waited = 0, wait, status;

    while ((status = run(op, modifier, index, in, THIRD)) == ECGSLOPE_BUSY && waited < DRAINED) {
        wait = 1 + random_below(random, longest);
        tick(wait);
        waited += wait;
    }
    check("a command gets through", status == ECGSLOPE_BUSY, false);
    return status;
}

/* The engines have work from a queue pair's first edge to its reset, the adapter's end, or the reset register. */
static void engines_end(uint32_t op, uint32_t modifier, uint32_t index)
{
    uint64_t random = random_from(op);

    start(NULL, op, 1);
    open_adapter();
    check("no queue pair is up: no tick is due", adapter_due(&adapter), 0);
    memset(memory, 0, PAGE);
    check("RST2INIT_QP", run(ECGSLOPE_RST2INIT_QP, 0, 1, BASE, 0), ECGSLOPE_OK);
    tick(1000);
    check("a queue pair is up: a tick is due", adapter_due(&adapter) > 0, true);
    if (op == 0)
        adapter_write(&adapter, BAR_RESET, 1);
    else
        insist(&random, 1, op, modifier, index, BASE);
    tick(DRAINED);
    check("no queue pair is up any more: no tick is due", adapter_due(&adapter), 0);
    adapter_close(&adapter);
}

/* A random command on queue pair 0 to 3 or on another record; now and then without its mailbox, not served, or the adapter's end. */
static void random_command(uint64_t *random)
{
    static const uint32_t ops[] = {
        ECGSLOPE_RST2INIT_QP, ECGSLOPE_INIT2RTR_QP, ECGSLOPE_RTR2RTS_QP, ECGSLOPE_RTS2SQD_QP, ECGSLOPE_SQD2RTS_QP,  ECGSLOPE_2ERR_QP,
        ECGSLOPE_2RST_QP,     ECGSLOPE_QUERY_QP,    ECGSLOPE_SW2HW_CQ,   ECGSLOPE_HW2SW_CQ,   ECGSLOPE_RESIZE_CQ,   ECGSLOPE_SW2HW_MPT,
        ECGSLOPE_HW2SW_MPT,   ECGSLOPE_NOP,         ECGSLOPE_CLOSE_HCA,  0x24,
    };
    uint32_t op = ops[random_below(random, sizeof ops / sizeof ops[0])], index = random_below(random, 4);
    uint32_t modifier = op == ECGSLOPE_2ERR_QP || op == ECGSLOPE_2RST_QP ? 3 : 0;

    if (op == ECGSLOPE_CLOSE_HCA || op == ECGSLOPE_NOP)
        index = 0;
    for (size_t i = 0; i < ECGSLOPE_QP_MAILBOX_BYTES; i++)
        memory[i] = (uint8_t)random_below(random, 256);
    memset(memory, 0, 4);             /* service type RC */
    memset(memory + 0x2c, 0, 4);      /* a completion queue's own number */
    memory[0x2f] = (uint8_t)index;
    if (random_below(random, 2) == 0) /* the name of a completion queue that there is */
        memset(memory + 0x70, 0, 4);
    if (insist(random, 2 * DRAINED, op, modifier, index, random_below(random, 20) == 0 ? LOST : BASE) == ECGSLOPE_OK &&
        op == ECGSLOPE_CLOSE_HCA)
        open_adapter();
}

static void random_driver(const char *trace, uint64_t seed)
{
    uint64_t random = random_from(seed);
    size_t engines;

    start(trace, seed, seed);
    open_adapter();
    for (unsigned i = 0; i < 1000; i++) {
        random_command(&random);
        tick(random_below(&random, 40));
        engines = 0;
        for (size_t slot = 0; slot < ECGSLOPE_SLOTS; slot++)
            engines += adapter.slot[slot].use == ADAPTER_ENGINE;
        check("slots of the engines, eight", engines == ECGSLOPE_SLOTS, false);
        if (random_below(&random, 100) == 0) {
            adapter_write(&adapter, BAR_RESET, 1);
            open_adapter();
        }
    }
    adapter_close(&adapter);
}

int main(int argc, char **argv)
{
    if (argc != 2)
        return 2;
    start(NULL, 0, 0);
    mailboxes();
    written_while_go();
    answers();
    resets();
    adapter_close(&adapter);
    engines_end(ECGSLOPE_2RST_QP, 3, 1);
    engines_end(ECGSLOPE_CLOSE_HCA, 0, 0);
    engines_end(0, 0, 0);
    for (uint64_t seed = 1; seed <= 200; seed++)
        random_driver(seed == 200 ? argv[1] : NULL, seed);
    return wrong;
}

// SPDX-License-Identifier: GPL-2.0-or-later
#include "adapter.h"

#include "random.h"

#include <string.h>

#define PAGE 4096u /* of guest memory: a page can be read as a whole or not at all */
#define REST 16    /* ticks between two groups of engine requests while nothing else is under way */
#define LAST_WORD (BAR_HCR_WORDS - 1)

int adapter_open(struct adapter *adapter, const struct adapter_options *options, const struct adapter_memory *memory)
{
    memset(adapter, 0, sizeof *adapter);
    adapter->options = *options;
    adapter->memory = *memory;
    return calls_open(&adapter->calls, options->store_len, options->trace);
}

void adapter_close(struct adapter *adapter)
{
    calls_close(&adapter->calls);
}

void adapter_power_up(struct adapter *adapter)
{
    calls_power_up(&adapter->calls);
    traffic_power_up(&adapter->traffic, adapter->options.traffic);
    memset(adapter->hcr, 0, sizeof adapter->hcr);
    memset(adapter->slot, 0, sizeof adapter->slot);
    adapter->last = ECGSLOPE_SLOTS - 1;
    adapter->random = random_from(adapter->options.seed);
}

static size_t used(const struct adapter *adapter, enum adapter_use use)
{
    size_t n = 0;

    for (size_t i = 0; i < ECGSLOPE_SLOTS; i++)
        n += adapter->slot[i].use == use;
    return n;
}

/* The command is answered: go is cleared, the status is the model's number, and the other fields stay as they were written. */
static void answer_command(struct adapter *adapter, uint32_t number)
{
    traffic_answered(&adapter->traffic, number);
    adapter->hcr[LAST_WORD] = number << 24 | (adapter->hcr[LAST_WORD] & ~BAR_GO & 0xffffff);
}

/* The front of the mailbox, as much of it as can be read: up to the end of its page, then the rest. */
static size_t read_mailbox(struct adapter *adapter, uint8_t mailbox[ECGSLOPE_QP_MAILBOX_BYTES])
{
    uint64_t address = (uint64_t)adapter->hcr[0] << 32 | adapter->hcr[1];
    size_t len = ECGSLOPE_QP_MAILBOX_BYTES, first = PAGE - address % PAGE;

    if (first > len)
        first = len;
    if (!adapter->memory.read(adapter->memory.owner, address, mailbox, first))
        return 0;
    if (first == len || address + first == 0) /* all was in one page, or no address comes after it */
        return first;
    return adapter->memory.read(adapter->memory.owner, address + first, mailbox + first, len - first) ? len : first;
}

/*
 * Submits what the register has. Which commands have a mailbox is the model's to say: it is asked without one first, and only where that
 * is too short for it is guest memory read. A refusal changes nothing, and no row of the table of refusals before that one looks at the
 * mailbox, so the answer is as if the mailbox had been lent at once.
 */
static uint32_t submit(struct adapter *adapter)
{
    uint8_t hcr[ECGSLOPE_REGISTER_BYTES], mailbox[ECGSLOPE_QP_MAILBOX_BYTES];
    uint32_t answer;
    size_t len;

    for (size_t i = 0; i < sizeof hcr; i++)
        hcr[i] = (uint8_t)(adapter->hcr[i / 4] >> 8 * (i % 4));
    answer = calls_command(&adapter->calls, hcr, NULL, 0);
    if (ecgslope_number(answer) == ECGSLOPE_BAD_LENGTH) {
        len = read_mailbox(adapter, mailbox);
        if (len > 0)
            answer = calls_command(&adapter->calls, hcr, mailbox, len);
    }
    return answer;
}

static uint32_t op(const struct adapter *adapter) { return adapter->hcr[LAST_WORD] & 0xfff; }

static void start_command(struct adapter *adapter)
{
    uint32_t answer = submit(adapter);

    if (ecgslope_number(answer) != ECGSLOPE_OK) {
        answer_command(adapter, ecgslope_number(answer));
    } else if (ecgslope_took_slot(answer)) {
        traffic_answered(&adapter->traffic, ECGSLOPE_OK);
        adapter->slot[ecgslope_slot(answer)].use = ADAPTER_COMMAND;
    } else {
        answer_command(adapter, ECGSLOPE_OK);
        traffic_done(&adapter->traffic, op(adapter), adapter->hcr[2]);
    }
}

/*
 * The answer goes to guest memory first, then go is cleared. A posted write is not acknowledged: where the answer cannot be written it is
 * lost. out_param may even name our own registers. Then the command register is not written, since go is set; and if it is a reset, all
 * words are 0 then, and stay so: the status is 0, too.
 */
static void finish_command(struct adapter *adapter, uint32_t answer, const uint8_t *out)
{
    uint64_t address = (uint64_t)adapter->hcr[3] << 32 | adapter->hcr[4];

    if (ecgslope_number(answer) == ECGSLOPE_OK)
        traffic_done(&adapter->traffic, op(adapter), adapter->hcr[2]);
    if (ecgslope_number(answer) == ECGSLOPE_OK && ecgslope_value(answer) > 0)
        adapter->memory.write(adapter->memory.owner, address, out, ecgslope_value(answer));
    answer_command(adapter, ecgslope_number(answer));
}

/* One burst of a slot's request; after the last, the slot is collected. No refusal is expected of either call, and one ends the request. */
static void step(struct adapter *adapter, size_t slot)
{
    uint8_t out[ECGSLOPE_ANSWER_BYTES] = { 0 };
    enum adapter_use use = adapter->slot[slot].use;
    uint32_t answer = calls_step(&adapter->calls, slot);

    if (ecgslope_number(answer) == ECGSLOPE_OK && ecgslope_value(answer) > 0)
        return;
    if (ecgslope_number(answer) == ECGSLOPE_OK)
        answer = calls_collect(&adapter->calls, slot, out);
    adapter->slot[slot].use = ADAPTER_FREE;
    if (use == ADAPTER_COMMAND)
        finish_command(adapter, answer, out);
    else if (ecgslope_number(answer) == ECGSLOPE_OK)
        traffic_read(&adapter->traffic, &adapter->slot[slot].request, out);
}

static void start_engine(struct adapter *adapter)
{
    struct traffic_request next;
    uint32_t answer;

    if (!traffic_next(&adapter->traffic, used(adapter, ADAPTER_ENGINE), &next))
        return;
    answer = calls_engine(&adapter->calls, next.number, next.index, next.psn, next.state);
    if (ecgslope_number(answer) == ECGSLOPE_OK) {
        adapter->slot[ecgslope_slot(answer)].use = ADAPTER_ENGINE;
        adapter->slot[ecgslope_slot(answer)].request = next;
    }
}

/* The slot that is stepped next; one is in use. */
static size_t choose(struct adapter *adapter)
{
    size_t skip = 0, slot = adapter->last;

    if (!adapter->options.in_turn)
        skip = random_below(&adapter->random, (uint32_t)(ECGSLOPE_SLOTS - used(adapter, ADAPTER_FREE)));
    do
        slot = (slot + 1) % ECGSLOPE_SLOTS;
    while (adapter->slot[slot].use == ADAPTER_FREE || skip-- > 0);
    return slot;
}

unsigned adapter_due(const struct adapter *adapter)
{
    if (used(adapter, ADAPTER_FREE) < ECGSLOPE_SLOTS)
        return 1;
    return traffic_comes(&adapter->traffic) ? REST : 0;
}

/* An engine request may start, and one burst is moved. */
void adapter_tick(struct adapter *adapter)
{
    start_engine(adapter);
    if (used(adapter, ADAPTER_FREE) == ECGSLOPE_SLOTS)
        return;
    adapter->last = choose(adapter);
    step(adapter, adapter->last);
}

static void reset(struct adapter *adapter)
{
    calls_reset(&adapter->calls);
    traffic_reset(&adapter->traffic);
    memset(adapter->hcr, 0, sizeof adapter->hcr);
    memset(adapter->slot, 0, sizeof adapter->slot);
}

/* The place of a word of the command register; BAR_HCR_WORDS for what is none. */
static size_t hcr_word(uint64_t offset)
{
    if (offset < BAR_HCR || offset > BAR_HCR_LAST || offset % 4 != 0)
        return BAR_HCR_WORDS;
    return (size_t)(offset - BAR_HCR) / 4;
}

uint32_t adapter_read(const struct adapter *adapter, uint64_t offset)
{
    size_t word = hcr_word(offset);

    return word < BAR_HCR_WORDS ? adapter->hcr[word] : 0;
}

/* While go is set the command register may not be written (interface document, table 3-1-4): such a write is dropped. */
void adapter_write(struct adapter *adapter, uint64_t offset, uint32_t value)
{
    size_t word = hcr_word(offset);

    if (offset == BAR_RESET && value == 1) {
        reset(adapter);
    } else if (word < BAR_HCR_WORDS && (adapter->hcr[LAST_WORD] & BAR_GO) == 0) {
        adapter->hcr[word] = value;
        if (word == LAST_WORD && (value & BAR_GO) != 0)
            start_command(adapter);
    }
}

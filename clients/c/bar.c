#include "bar.h"

#include <string.h>

void bar_start(struct bar *bar, const struct ecgslope_lent *lent)
{
    memset(bar, 0, sizeof *bar);
    bar->lent = *lent;
}

int bar_lend(struct bar *bar, uint64_t address, uint8_t *bytes, size_t len)
{
    if (bar->memories == BAR_MEMORIES)
        return 0;
    bar->memory[bar->memories++] = (struct bar_memory){ .address = address, .bytes = bytes, .len = len };
    return 1;
}

/* The memory at an address; none has length 0, which the library answers where it needs a mailbox. */
static struct bar_memory bar_find(const struct bar *bar, uint64_t address)
{
    for (size_t i = 0; i < bar->memories; i++)
        if (bar->memory[i].address == address)
            return bar->memory[i];
    return (struct bar_memory){ .address = address, .bytes = NULL, .len = 0 };
}

/*
 * Moves every burst of a slot's request and collects it. A virtual machine would step at each tick of the engines, with other
 * requests in between.
 */
static uint32_t bar_finish(struct bar *bar, size_t slot, uint8_t *out, size_t out_len, size_t *len)
{
    uint32_t answer;

    do {
        answer = ecgslope_lent_step(&bar->lent, slot);
        if (ecgslope_number(answer) != ECGSLOPE_OK)
            return ecgslope_number(answer);
        bar->bursts++;
    } while (ecgslope_value(answer) != 0);

    answer = ecgslope_lent_collect(&bar->lent, slot, out, out_len);
    if (ecgslope_number(answer) == ECGSLOPE_OK)
        *len = ecgslope_value(answer);
    return ecgslope_number(answer);
}

/* Runs the command in the register and hands back its status. */
static uint32_t bar_command(struct bar *bar)
{
    uint8_t hcr[ECGSLOPE_REGISTER_BYTES], out[ECGSLOPE_ANSWER_BYTES];
    struct bar_memory mailbox = bar_find(bar, (uint64_t)bar->hcr[0] << 32 | bar->hcr[1]);
    struct bar_memory reply = bar_find(bar, (uint64_t)bar->hcr[3] << 32 | bar->hcr[4]);
    size_t len = 0;
    uint32_t answer;

    for (size_t i = 0; i < sizeof hcr; i++)
        hcr[i] = (uint8_t)(bar->hcr[i / 4] >> 8 * (i % 4));

    bar->bursts = 0;
    answer = ecgslope_lent_submit_command(&bar->lent, hcr, sizeof hcr, mailbox.bytes, mailbox.len);
    if (ecgslope_number(answer) != ECGSLOPE_OK || !ecgslope_took_slot(answer))
        return ecgslope_number(answer);

    /* Collected into memory of our own: the slot is freed even where the driver's memory is too short for the answer. */
    answer = bar_finish(bar, ecgslope_slot(answer), out, sizeof out, &len);
    if (answer != ECGSLOPE_OK)
        return answer;
    if (len > reply.len)
        return ECGSLOPE_BAD_LENGTH;
    if (len > 0)
        memcpy(reply.bytes, out, len);
    return ECGSLOPE_OK;
}

void bar_write(struct bar *bar, uint32_t offset, uint32_t value)
{
    if (offset == BAR_RESET && value == 1) {
        bar->reset = ecgslope_lent_reset(&bar->lent) != ECGSLOPE_OK;
        memset(bar->hcr, 0, sizeof bar->hcr);
        bar->bursts = 0;
    } else if (offset >= BAR_HCR && offset <= BAR_HCR_LAST && offset % 4 == 0) {
        bar->hcr[(offset - BAR_HCR) / 4] = value;
        if (offset == BAR_HCR_LAST && (value & BAR_GO) != 0)
            bar->hcr[BAR_HCR_WORDS - 1] = bar_command(bar) << 24 | (value & ~BAR_GO & 0xffffff);
    }
}

/* An offset without a register reads as 0. */
uint32_t bar_read(const struct bar *bar, uint32_t offset)
{
    if (offset == BAR_RESET)
        return bar->reset;
    if (offset >= BAR_HCR && offset <= BAR_HCR_LAST && offset % 4 == 0)
        return bar->hcr[(offset - BAR_HCR) / 4];
    return 0;
}

uint32_t bar_engine(struct bar *bar, uint32_t number, uint32_t index, uint32_t psn, uint8_t state, uint8_t *out, size_t out_len,
                    size_t *len)
{
    uint32_t answer;

    *len = 0;
    bar->bursts = 0;
    answer = ecgslope_lent_submit_engine(&bar->lent, number, index, psn, state);
    if (ecgslope_number(answer) != ECGSLOPE_OK)
        return ecgslope_number(answer);
    return bar_finish(bar, ecgslope_slot(answer), out, out_len, len);
}

// SPDX-License-Identifier: GPL-2.0-or-later
#include "calls.h"

#include <errno.h>
#include <stdarg.h>
#include <stdlib.h>
#include <string.h>

/* What `replay` fills the buffer of a collection with. */
#define UNTOUCHED 0xee

int calls_open(struct calls *calls, size_t store_len, const char *trace)
{
    memset(calls, 0, sizeof *calls);
    if (trace != NULL) {
        calls->trace = fopen(trace, "w");
        if (calls->trace == NULL)
            return errno;
        setvbuf(calls->trace, NULL, _IOLBF, BUFSIZ); /* whole lines are there whenever the program ends */
    }
    calls->lent = (struct ecgslope_lent){
        .device = calls->device, .device_len = sizeof calls->device, .store = calloc(1, store_len == 0 ? 1 : store_len),
        .store_len = store_len, .room = calls->room, .room_len = sizeof calls->room,
    };
    if (calls->lent.store == NULL) {
        calls_close(calls);
        return ENOMEM;
    }
    return 0;
}

void calls_close(struct calls *calls)
{
    if (calls->trace != NULL)
        fclose(calls->trace);
    free(calls->lent.store);
    memset(calls, 0, sizeof *calls);
}

static void trace(struct calls *calls, const char *format, ...)
{
    va_list arguments;

    if (calls->trace == NULL)
        return;
    va_start(arguments, format);
    vfprintf(calls->trace, format, arguments);
    va_end(arguments);
}

/* A space, then the bytes as a script has them: `-` for none. */
static void trace_bytes(struct calls *calls, const uint8_t *bytes, size_t len)
{
    trace(calls, len == 0 ? " -" : " ");
    for (size_t i = 0; i < len; i++)
        trace(calls, "%02x", bytes[i]);
}

void calls_power_up(struct calls *calls)
{
    memset(calls->device, 0, sizeof calls->device);
    memset(calls->room, 0, sizeof calls->room);
    memset(calls->lent.store, 0, calls->lent.store_len);
    if (calls->lent.store_len > CALLS_REPLAY_STORE)
        trace(calls, "# The store is longer than replay can hold, %u bytes: it ends at the next line.\n", CALLS_REPLAY_STORE);
    trace(calls, "lend %zu 0\n# = ok\n", calls->lent.store_len);
}

static void trace_submitted(struct calls *calls, uint32_t answer)
{
    if (ecgslope_number(answer) == ECGSLOPE_OK && ecgslope_took_slot(answer))
        trace(calls, "# = 0x0 slot %zu\n", ecgslope_slot(answer));
    else
        trace(calls, "# = 0x%x\n", (unsigned)ecgslope_number(answer));
}

uint32_t calls_command(struct calls *calls, const uint8_t *hcr, const uint8_t *mailbox, size_t mailbox_len)
{
    uint32_t answer;

    trace(calls, "command");
    trace_bytes(calls, hcr, ECGSLOPE_REGISTER_BYTES);
    trace_bytes(calls, mailbox, mailbox_len);
    trace(calls, "\n");
    answer = ecgslope_lent_submit_command(&calls->lent, hcr, ECGSLOPE_REGISTER_BYTES, mailbox, mailbox_len);
    trace_submitted(calls, answer);
    return answer;
}

uint32_t calls_engine(struct calls *calls, uint32_t number, uint32_t index, uint32_t psn, uint8_t state)
{
    uint32_t answer;

    trace(calls, "engine %u %u 0x%x %u\n", (unsigned)number, (unsigned)index, (unsigned)psn, state);
    answer = ecgslope_lent_submit_engine(&calls->lent, number, index, psn, state);
    trace_submitted(calls, answer);
    return answer;
}

uint32_t calls_step(struct calls *calls, size_t slot)
{
    uint32_t answer;

    trace(calls, "step %zu\n", slot);
    answer = ecgslope_lent_step(&calls->lent, slot);
    if (ecgslope_number(answer) == ECGSLOPE_OK)
        trace(calls, "# = 0x0 left %u\n", (unsigned)ecgslope_value(answer));
    else
        trace(calls, "# = 0x%x\n", (unsigned)ecgslope_number(answer));
    return answer;
}

uint32_t calls_collect(struct calls *calls, size_t slot, uint8_t out[ECGSLOPE_ANSWER_BYTES])
{
    uint32_t answer;

    memset(out, UNTOUCHED, ECGSLOPE_ANSWER_BYTES);
    trace(calls, "collect %zu %d\n", slot, ECGSLOPE_ANSWER_BYTES);
    answer = ecgslope_lent_collect(&calls->lent, slot, out, ECGSLOPE_ANSWER_BYTES);
    trace(calls, "# = 0x%x", (unsigned)ecgslope_number(answer));
    if (ecgslope_number(answer) == ECGSLOPE_OK)
        trace(calls, " %u", (unsigned)ecgslope_value(answer));
    trace_bytes(calls, out, ECGSLOPE_ANSWER_BYTES);
    trace(calls, "\n");
    return answer;
}

uint32_t calls_reset(struct calls *calls)
{
    uint32_t answer;

    trace(calls, "reset\n");
    answer = ecgslope_lent_reset(&calls->lent);
    trace(calls, "# = 0x%x\n", (unsigned)ecgslope_number(answer));
    return answer;
}

/* SPDX-License-Identifier: GPL-2.0-or-later */
/*
 * The library's five calls on memory of our own, each written to a trace in the format of the program `replay`: the call as a line, then
 * what was answered as a comment, `# = ` and just the words that `replay` prints. So a trace is a script, and the comments are what
 * running it has to print.
 */
#ifndef CALLS_H
#define CALLS_H

#include <ecgslope.h>
#include <stdio.h>

#define CALLS_REPLAY_STORE 1048960u /* the longest store that `replay` can hold */

struct calls {
    struct ecgslope_lent lent;
    uint8_t device[ECGSLOPE_DEVICE_BYTES];
    uint8_t room[ECGSLOPE_ROOM_BYTES];
    FILE *trace; /* NULL: none is written */
};

/* Takes memory for the store, and opens the trace unless its path is NULL. 0, or errno's number for what failed. */
int calls_open(struct calls *calls, size_t store_len, const char *trace);
void calls_close(struct calls *calls);

/* Every byte 0: a closed, empty adapter. */
void calls_power_up(struct calls *calls);

uint32_t calls_command(struct calls *calls, const uint8_t *hcr, const uint8_t *mailbox, size_t mailbox_len);
uint32_t calls_engine(struct calls *calls, uint32_t number, uint32_t index, uint32_t psn, uint8_t state);
uint32_t calls_step(struct calls *calls, size_t slot);
uint32_t calls_collect(struct calls *calls, size_t slot, uint8_t out[ECGSLOPE_ANSWER_BYTES]);
uint32_t calls_reset(struct calls *calls);

#endif

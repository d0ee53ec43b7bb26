/* SPDX-License-Identifier: GPL-2.0-or-later */
/*
 * The adapter behind BAR0, over the Ecgslope library: the command register, the reset register, and the bursts, one a tick. It knows
 * nothing of QEMU: whoever has it in a virtual machine calls it when the guest reads or writes a register and when a tick is due, and
 * gives it the way to guest memory.
 */
#ifndef ADAPTER_H
#define ADAPTER_H

#include "calls.h"
#include "registers.h"
#include "traffic.h"

#include <stdbool.h>

/* The way to guest memory. Both say whether it could be done; a read that could not may have changed the bytes. */
struct adapter_memory {
    bool (*read)(void *owner, uint64_t address, uint8_t *bytes, size_t len);
    bool (*write)(void *owner, uint64_t address, const uint8_t *bytes, size_t len);
    void *owner;
};

struct adapter_options {
    size_t store_len;
    bool in_turn;     /* which slot a tick steps: each in turn, or one at random */
    uint64_t seed;    /* of that choice */
    uint64_t traffic; /* seed of the engines' requests; 0: none */
    const char *trace;
};

enum adapter_use { ADAPTER_FREE, ADAPTER_COMMAND, ADAPTER_ENGINE };

struct adapter {
    struct calls calls;
    struct adapter_memory memory;
    struct adapter_options options;
    uint32_t hcr[BAR_HCR_WORDS];
    struct {
        enum adapter_use use;
        struct traffic_request request; /* of an engine */
    } slot[ECGSLOPE_SLOTS];
    size_t last; /* the slot stepped last */
    uint64_t random;
    struct traffic traffic;
};

/* 0, or errno's number for what failed: the store's memory, or the trace. */
int adapter_open(struct adapter *adapter, const struct adapter_options *options, const struct adapter_memory *memory);
void adapter_close(struct adapter *adapter);

/* The machine is switched on or reset: every byte is 0, and a trace begins anew. */
void adapter_power_up(struct adapter *adapter);

/* BAR0, by words of 32 bits. */
uint32_t adapter_read(const struct adapter *adapter, uint64_t offset);
void adapter_write(struct adapter *adapter, uint64_t offset, uint32_t value);

/* In how many ticks the next one is due; 0: none is, until the guest writes a register. */
unsigned adapter_due(const struct adapter *adapter);
void adapter_tick(struct adapter *adapter);

#endif

/* SPDX-License-Identifier: GPL-2.0-or-later */
/*
 * The test's sequence: the adapter brought up through BAR0, used and taken down, as a driver does it. It is compiled into a program of
 * the guest and into a kernel module; each gives it registers, memory that the adapter reaches, and the functions below.
 */
#ifndef SEQUENCE_H
#define SEQUENCE_H

#ifdef __KERNEL__
#include <linux/printk.h>
#include <linux/string.h>
#include <linux/types.h>
#define guest_say(format, ...) pr_info("MODULE " format "\n", ##__VA_ARGS__)
#else
#include <stdbool.h>
#include <stdint.h>
#include <stdio.h>
#include <string.h>
#define guest_say(format, ...) printf("GUEST " format "\n", ##__VA_ARGS__)
#endif

#define GUEST_PAGE 4096

struct guest {
    void *io;                         /* BAR0 */
    uint8_t *in, *out;                /* two pages that lie side by side, and one page */
    uint64_t in_address, out_address; /* where the adapter finds them */
    bool traffic;                     /* the device has engine requests of its own */

    uint8_t record[256];       /* what the queue pair's record has to be */
    unsigned int steps, wrong; /* what was looked at, and how much of it was wrong */
    unsigned int seen;         /* how often go was still set when a command was polled */
    unsigned int busy;         /* how often a command was tried again because the engines held its record */
};

/* Given by the program and by the module. */
uint32_t guest_get(struct guest *guest, uint32_t offset);
void guest_put(struct guest *guest, uint32_t offset, uint32_t value);
void guest_pause(void); /* some 50 microseconds */

/* Runs all of it, with a line for each step, and says whether all was as it should be. */
bool sequence_run(struct guest *guest);

#endif

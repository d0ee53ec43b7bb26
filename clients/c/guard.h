/* What the parts of the guard test share: see guard.c. */
#ifndef GUARD_H
#define GUARD_H

#include <ecgslope.h>

enum function { COMMAND, ENGINE, STEP, COLLECT, RESET, READ_REGISTER, WRITE_REGISTER, FUNCTIONS };
enum buffer { DEVICE, STORE, ROOM, HCR, MAILBOX, OUT, FIELDS, BUFFERS };

#define CAPACITY 4096 /* of each buffer: a page, so that all lengths fit between two inaccessible ones */

/* A call: its arguments, and what the buffers hold before it. */
struct call {
    enum function function;
    uint8_t bytes[BUFFERS][CAPACITY];
    size_t len[BUFFERS];
    uint32_t number, index, psn;
    uint8_t state;
    size_t slot;
    int keep; /* the next call goes on from what this one leaves */
};

/* A device in use: what the calls of one seed are made on. */
struct scene {
    uint8_t device[ECGSLOPE_DEVICE_BYTES];
    uint8_t store[CAPACITY];
    uint8_t room[CAPACITY];
    size_t store_len;
    uint8_t logs[4]; /* queue pairs, completion queues, event queues, MPTs */
};

/* guard_input.c: calls, from a generator of our own, so that a seed gives the same calls everywhere. */
void input_seed(uint64_t seed);
void input_scene(struct scene *scene);
void input_call(struct scene *scene, struct call *call);

/* guard_memory.c: pages to lend, each with an inaccessible page before it and behind it. */
void memory_map(void);
/* Where a buffer of len bytes stands: its end, or else its start, at an inaccessible page. */
uint8_t *memory_writable(enum buffer buffer, size_t len, int at_end);
/* The same memory, mapped a second time, where writing it is a fault. */
uint8_t *memory_read_only(enum buffer buffer, size_t len, int at_end);

#endif

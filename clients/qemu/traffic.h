/* SPDX-License-Identifier: GPL-2.0-or-later */
/*
 * The packet engines of the device: which engine request comes next, on which of the queue pairs that the driver brought up. What is
 * known of them comes from commands that were done and from what requests read, as an engine would learn it.
 *
 * Requests come in groups of one to seven, and a group starts once the one before has ended. So an engine never has more than seven of
 * the eight slots, and no record is held for ever.
 */
#ifndef TRAFFIC_H
#define TRAFFIC_H

#include <stdbool.h>
#include <stddef.h>
#include <stdint.h>

#define TRAFFIC_GROUP 7  /* requests of a group, at most */
#define TRAFFIC_PAIRS 64 /* queue pairs that the engines use at a time; what the driver brings up beyond these is left alone */
#define TRAFFIC_UNREAD 0xff

struct traffic_request {
    uint32_t number, index, psn;
    uint8_t state;
};

struct traffic {
    uint64_t seed; /* 0: there is no traffic */
    uint64_t random;
    struct {
        uint32_t index;
        uint8_t state; /* as last read, or TRAFFIC_UNREAD */
    } pair[TRAFFIC_PAIRS];
    size_t pairs;
    uint32_t group; /* requests of the present group that are still to come */
    bool held_back; /* a command was refused because of what is under way: no request comes until one is answered otherwise */
};

void traffic_power_up(struct traffic *traffic, uint64_t seed);

/* A command was answered with a number, and if it is done, what it did. */
void traffic_answered(struct traffic *traffic, uint32_t number);
void traffic_done(struct traffic *traffic, uint32_t op, uint32_t index);
void traffic_reset(struct traffic *traffic);

/* Whether there is a request to come at all, and the next one, if it comes now; `running` is how many are under way. */
bool traffic_comes(const struct traffic *traffic);
bool traffic_next(struct traffic *traffic, size_t running, struct traffic_request *next);

/* What a request that is finished read. */
void traffic_read(struct traffic *traffic, const struct traffic_request *request, const uint8_t *answer);

#endif

// SPDX-License-Identifier: GPL-2.0-or-later
#include "traffic.h"

#include "random.h"

#include <ecgslope.h>
#include <string.h>

void traffic_power_up(struct traffic *traffic, uint64_t seed)
{
    memset(traffic, 0, sizeof *traffic);
    traffic->seed = seed;
    traffic->random = random_from(seed);
}

void traffic_answered(struct traffic *traffic, uint32_t number)
{
    traffic->held_back = number == ECGSLOPE_BUSY || number == ECGSLOPE_FULL;
}

/* The place of a queue pair among those known; one past the last if it is none. */
static size_t find(const struct traffic *traffic, uint32_t index)
{
    size_t i = 0;

    while (i < traffic->pairs && traffic->pair[i].index != index)
        i++;
    return i;
}

void traffic_done(struct traffic *traffic, uint32_t op, uint32_t index)
{
    size_t i = find(traffic, index);

    if (op == ECGSLOPE_RST2INIT_QP && i == traffic->pairs && i < TRAFFIC_PAIRS) {
        traffic->pair[i].index = index;
        traffic->pair[i].state = TRAFFIC_UNREAD;
        traffic->pairs++;
    } else if (op == ECGSLOPE_2RST_QP && i < traffic->pairs) {
        traffic->pair[i] = traffic->pair[--traffic->pairs];
    } else if (op == ECGSLOPE_CLOSE_HCA) {
        traffic_reset(traffic);
    }
}

void traffic_reset(struct traffic *traffic)
{
    traffic->pairs = 0;
    traffic->group = 0;
    traffic->held_back = false;
}

bool traffic_comes(const struct traffic *traffic)
{
    return traffic->seed != 0 && traffic->pairs > 0 && !traffic->held_back;
}

bool traffic_next(struct traffic *traffic, size_t running, struct traffic_request *next)
{
    size_t i;

    if (!traffic_comes(traffic) || (traffic->group == 0 && running > 0))
        return false;
    if (traffic->group == 0)
        traffic->group = 1 + random_below(&traffic->random, TRAFFIC_GROUP);
    traffic->group--;

    i = random_below(&traffic->random, (uint32_t)traffic->pairs);
    *next = (struct traffic_request){
        .number = ECGSLOPE_READ_STATE + random_below(&traffic->random, ECGSLOPE_READ_JOINED),
        .index = traffic->pair[i].index,
        .psn = random_below(&traffic->random, 0x1000000),
        .state = traffic->pair[i].state,
    };
    /* A write keeps the state, so the engines send no queue pair anywhere; until one is read that a write may keep, states are read. */
    if (next->state < ECGSLOPE_RTR || next->state > ECGSLOPE_SQD) {
        next->state = ECGSLOPE_RESET;
        if (next->number >= ECGSLOPE_WRITE_NEXT_PSN && next->number <= ECGSLOPE_WRITE_EXPECTED_PSN)
            next->number = ECGSLOPE_READ_STATE;
    }
    return true;
}

void traffic_read(struct traffic *traffic, const struct traffic_request *request, const uint8_t *answer)
{
    size_t i = find(traffic, request->index);

    if (i == traffic->pairs)
        return;
    if (request->number == ECGSLOPE_READ_STATE || request->number == ECGSLOPE_READ_NEXT_PSN)
        traffic->pair[i].state = answer[0];
    else if (request->number == ECGSLOPE_READ_ALL || request->number == ECGSLOPE_READ_JOINED)
        traffic->pair[i].state = answer[0] >> 4; /* word 00h of the record, bits 31:28 */
}

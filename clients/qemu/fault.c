// SPDX-License-Identifier: GPL-2.0-or-later
/*
 * A fault planted in the library, to see that the tests notice: linked with --wrap=ecgslope_step, it stands in for the step. Before the
 * sixth burst of a request it changes one bit of what the slot keeps in the room, in the bytes that this burst moves. So an edge of a
 * queue pair that takes word 54h writes a wrong byte; a read, which copies into the room, is right.
 */
#include <ecgslope.h>

uint32_t __real_ecgslope_step(uint8_t *device, size_t device_len, uint8_t *store, size_t store_len, uint8_t *room, size_t room_len,
                              size_t slot);
uint32_t __wrap_ecgslope_step(uint8_t *device, size_t device_len, uint8_t *store, size_t store_len, uint8_t *room, size_t room_len,
                              size_t slot);

uint32_t __wrap_ecgslope_step(uint8_t *device, size_t device_len, uint8_t *store, size_t store_len, uint8_t *room, size_t room_len,
                              size_t slot)
{
    const uint8_t *bursts_moved = &device[32 + 32 * slot + 2];

    if (*bursts_moved == 5)
        room[ECGSLOPE_SLOT_ROOM_BYTES * slot + 0x54] ^= 0x80;
    return __real_ecgslope_step(device, device_len, store, store_len, room, room_len, slot);
}

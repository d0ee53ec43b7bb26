/* The smallest use: a device with one record of each kind is opened, and its queue pair queried. */
#include <ecgslope.h>
#include <stdio.h>

static uint8_t device[ECGSLOPE_DEVICE_BYTES], store[448], room[ECGSLOPE_ROOM_BYTES], out[ECGSLOPE_ANSWER_BYTES];

/* Submits a command, steps it to its end and collects its answer into out. */
static uint32_t run(const uint8_t *hcr, const uint8_t *mailbox, size_t mailbox_len)
{
    const struct ecgslope_lent lent = { .device = device, .device_len = sizeof device, .store = store, .store_len = sizeof store,
                                        .room = room, .room_len = sizeof room };
    uint32_t answer = ecgslope_lent_submit_command(&lent, hcr, ECGSLOPE_REGISTER_BYTES, mailbox, mailbox_len);
    if (ecgslope_number(answer) == ECGSLOPE_OK && ecgslope_took_slot(answer)) {
        size_t slot = ecgslope_slot(answer);
        do answer = ecgslope_lent_step(&lent, slot); while (ecgslope_value(answer) != 0);
        answer = ecgslope_lent_collect(&lent, slot, out, sizeof out);
    }
    return answer;
}

int main(void)
{
    const uint8_t init[28] = { [24] = ECGSLOPE_INIT_HCA, [26] = 0x80 }, query[28] = { [24] = ECGSLOPE_QUERY_QP, [26] = 0x80 };
    const uint8_t counts[ECGSLOPE_INIT_MAILBOX_BYTES] = { 0 }; /* logarithms 0 */

    printf("INIT_HCA: 0x%02x\n", (unsigned)ecgslope_number(run(init, counts, sizeof counts)));
    uint32_t answer = run(query, NULL, 0);
    printf("QUERY_QP: 0x%02x, %u bytes\n", (unsigned)ecgslope_number(answer), (unsigned)ecgslope_value(answer));
    return 0;
}

/*
 * Ecgslope: a proved software model of the control side of the JingZhao RDMA adapter.
 *
 * The caller lends all memory; the library keeps none and calls nothing. Lend it
 *   - the device: ECGSLOPE_DEVICE_BYTES bytes, the adapter's state and its row of eight slots. All zero is a closed, empty
 *     adapter: nothing else has to be set up;
 *   - the store: the context store, as many bytes as INIT_HCA's counts need, and the same length at every call while open;
 *   - the room: at least ECGSLOPE_ROOM_BYTES bytes, ECGSLOPE_SLOT_ROOM_BYTES for each slot.
 *
 *     static uint8_t device[ECGSLOPE_DEVICE_BYTES], store[2688], room[ECGSLOPE_ROOM_BYTES];
 *     struct ecgslope_lent lent = { .device = device, .device_len = sizeof device, .store = store, .store_len = sizeof store,
 *                                   .room = room, .room_len = sizeof room };
 *     uint32_t answer = ecgslope_lent_submit_command(&lent, hcr, 28, mailbox, mailbox_len);
 *     if (ecgslope_number(answer) == ECGSLOPE_OK && ecgslope_took_slot(answer)) {
 *         size_t slot = ecgslope_slot(answer);
 *         do answer = ecgslope_lent_step(&lent, slot); while (ecgslope_value(answer) != 0);
 *         answer = ecgslope_lent_collect(&lent, slot, out, sizeof out);
 *     }
 *
 * Every call answers with one number of 32 bits. Its low byte is the number returned, ECGSLOPE_OK or why the call was refused; a
 * refusal is its number alone and changes no byte. Above the low byte stands, of an accepted call,
 *   - of a submission, the slot that it took plus one; 0 for INIT_HCA, CLOSE_HCA and NOP, which take none;
 *   - of a step, the bursts that the request has still to move;
 *   - of a collection, the bytes written to the front of the buffer.
 *
 * Any bytes may be lent: bytes that are no possible state are answered with ECGSLOPE_IMPOSSIBLE. What the library relies on is
 * that each pointer and its length are true (a length of 0 may have any pointer), that the buffers of one call do not overlap, and
 * that one thread at a time uses them.
 *
 * The device's bytes, every number little-endian. Byte 0: 1 while open, else 0. Bytes 1 to 4: the logarithms of the counts of
 * queue pairs, completion queues, event queues and MPTs. Bytes 8 to 15: the store's length at INIT_HCA. Slot k at 32 + 32 k, with
 * these bytes: 0, its status (0 free, 1 running, 2 finished); 1, what it has (0 a command, 1 an engine request); 2, the bursts
 * moved; 3, the op_modifier; 4 to 5, the op or the engine request's number; 8 to 11, the record's number; 12 to 15 and 16 to 19,
 * the completion queue and the event queue of engine request 7; 20 to 23, the PSN; 24, the state of engine requests 3 to 5. Bytes
 * that no field uses are not looked at. A submission that takes a slot writes that slot's 32 bytes, one that takes none the
 * header's 32, each with 0 in the bytes that it does not use; a step writes its slot's status and bursts moved, and no other byte;
 * a collection makes its slot's 32 bytes 0; a reset writes the header with byte 0 cleared and makes the slots' bytes 0. CLOSE_HCA and
 * reset leave the logarithms and the length in the header, and while closed they are not looked at.
 */
#ifndef ECGSLOPE_H
#define ECGSLOPE_H

#include <stddef.h>
#include <stdint.h>

#ifdef __cplusplus
extern "C" {
#endif

/* Sizes in bytes. */
#define ECGSLOPE_DEVICE_BYTES 288
#define ECGSLOPE_SLOTS 8
#define ECGSLOPE_SLOT_ROOM_BYTES 384
#define ECGSLOPE_ROOM_BYTES (ECGSLOPE_SLOTS * ECGSLOPE_SLOT_ROOM_BYTES)
#define ECGSLOPE_REGISTER_BYTES 28 /* the command register (HCR) */
#define ECGSLOPE_FIELDS_BYTES 32   /* its fields, as the register's reader gives them */
#define ECGSLOPE_ANSWER_BYTES 384  /* the longest answer of a collection, that of engine request 7 */
#define ECGSLOPE_QP_MAILBOX_BYTES 164
#define ECGSLOPE_INIT_MAILBOX_BYTES 64

/* Numbers returned. */
enum ecgslope_returned {
    ECGSLOPE_OK = 0,
    ECGSLOPE_NOT_SERVED = 2,       /* an op or an engine request's number that is not served */
    ECGSLOPE_BAD_PARAMETER = 3,    /* a field, an index, a mailbox's content, or a name in engine request 7 */
    ECGSLOPE_BAD_SYSTEM_STATE = 4, /* INIT_HCA while open; any other command but NOP, and any engine request, while closed */
    ECGSLOPE_BUSY = 0x81,          /* another command is uncollected, a slot is occupied, or the record is held */
    ECGSLOPE_FULL = 0x82,          /* all eight slots are occupied */
    ECGSLOPE_BAD_LENGTH = 0x83,    /* a buffer of the wrong length, or too short */
    ECGSLOPE_NO_REQUEST = 0x84,    /* no such slot, or nothing in it to step or to collect */
    ECGSLOPE_NOT_PERMITTED = 0x85, /* an edge that is not permitted, or the wrong owner */
    ECGSLOPE_STILL_RUNNING = 0x86, /* a collection before the last burst */
    ECGSLOPE_IMPOSSIBLE = 0x87,    /* the device's bytes are no possible state */
    ECGSLOPE_NOT_FOR_TYPE = 0x88   /* an engine write that is permitted for another service type, but not for the queue pair's */
};

/* Commands. Those on a record take its number as in_modifier. */
enum ecgslope_op {
    ECGSLOPE_INIT_HCA = 0x07,
    ECGSLOPE_CLOSE_HCA = 0x08,
    ECGSLOPE_SW2HW_MPT = 0x0d,
    ECGSLOPE_HW2SW_MPT = 0x0f,
    ECGSLOPE_SW2HW_EQ = 0x13,
    ECGSLOPE_HW2SW_EQ = 0x14,
    ECGSLOPE_SW2HW_CQ = 0x16,
    ECGSLOPE_HW2SW_CQ = 0x17,
    ECGSLOPE_RST2INIT_QP = 0x19,
    ECGSLOPE_INIT2RTR_QP = 0x1a,
    ECGSLOPE_RTR2RTS_QP = 0x1b,
    ECGSLOPE_RTS2RTS_QP = 0x1c,
    ECGSLOPE_SQE2RTS_QP = 0x1d,
    ECGSLOPE_2ERR_QP = 0x1e, /* op_modifier 3; from any state but RESET and ERR */
    ECGSLOPE_RTS2SQD_QP = 0x1f,
    ECGSLOPE_SQD2RTS_QP = 0x20,
    ECGSLOPE_2RST_QP = 0x21, /* op_modifier 3; from any state but RESET */
    ECGSLOPE_QUERY_QP = 0x22,
    ECGSLOPE_RESIZE_CQ = 0x2c,
    ECGSLOPE_INIT2INIT_QP = 0x2d,
    ECGSLOPE_NOP = 0x31,
    ECGSLOPE_SQD2SQD_QP = 0x38
};

/* Engine requests, all on a queue pair. PSN and state are looked at only by the writes. */
enum ecgslope_engine {
    ECGSLOPE_READ_STATE = 1,         /* answer: 1 byte, the state */
    ECGSLOPE_READ_NEXT_PSN = 2,      /* answer: 4 bytes, the state, then the PSN, high byte first */
    ECGSLOPE_WRITE_NEXT_PSN = 3,
    ECGSLOPE_WRITE_LAST_ACKED_PSN = 4,
    ECGSLOPE_WRITE_EXPECTED_PSN = 5,
    ECGSLOPE_READ_ALL = 6,           /* answer: 256 bytes */
    ECGSLOPE_READ_JOINED = 7         /* answer: 384 bytes, the queue pair with its completion queue and event queue */
};

/* States of a queue pair. */
enum ecgslope_state {
    ECGSLOPE_RESET = 0,
    ECGSLOPE_INIT = 1,
    ECGSLOPE_RTR = 2,
    ECGSLOPE_RTS = 3,
    ECGSLOPE_SQE = 4,
    ECGSLOPE_SQD = 5,
    ECGSLOPE_ERR = 6
};

/* The exported functions. Callers use those that take what is lent, below: these change when more is lent. */

uint32_t ecgslope_submit_command(uint8_t *device, size_t device_len, uint8_t *store, size_t store_len, uint8_t *room, size_t room_len,
                                 const uint8_t *hcr, size_t hcr_len, const uint8_t *mailbox, size_t mailbox_len);
uint32_t ecgslope_submit_engine(uint8_t *device, size_t device_len, uint8_t *store, size_t store_len, uint8_t *room, size_t room_len,
                                uint32_t number, uint32_t index, uint32_t psn, uint8_t state);
uint32_t ecgslope_step(uint8_t *device, size_t device_len, uint8_t *store, size_t store_len, uint8_t *room, size_t room_len, size_t slot);
uint32_t ecgslope_collect(uint8_t *device, size_t device_len, const uint8_t *store, size_t store_len, const uint8_t *room,
                          size_t room_len, size_t slot, uint8_t *out, size_t out_len);
uint32_t ecgslope_reset(uint8_t *device, size_t device_len, const uint8_t *store, size_t store_len, const uint8_t *room, size_t room_len);

/*
 * The command register's fields, ECGSLOPE_FIELDS_BYTES bytes, little-endian: in_param 0 to 7, out_param 8 to 15, in_modifier 16 to
 * 19, token 20 to 21, op 22 to 23, op_modifier 24, event 25 (1 or 0), the rest 0. Fewer than 28 bytes of register or 32 of fields get
 * ECGSLOPE_BAD_LENGTH; of more only the front is touched. The reader refuses a register that is not well formed, the writer an op above
 * 0xfff or an event above 1, with ECGSLOPE_BAD_PARAMETER; the writer does not look at bytes 26 to 31.
 */
uint32_t ecgslope_read_register(const uint8_t *hcr, size_t hcr_len, uint8_t *fields, size_t fields_len);
uint32_t ecgslope_write_register(uint8_t *hcr, size_t hcr_len, const uint8_t *fields, size_t fields_len);

/* What is lent at every call. Name its fields when you fill it in, so that fields may be added. */
struct ecgslope_lent {
    uint8_t *device;
    size_t device_len;
    uint8_t *store;
    size_t store_len;
    uint8_t *room;
    size_t room_len;
};

static inline uint32_t ecgslope_lent_submit_command(const struct ecgslope_lent *lent, const uint8_t *hcr, size_t hcr_len,
                                                    const uint8_t *mailbox, size_t mailbox_len)
{
    return ecgslope_submit_command(lent->device, lent->device_len, lent->store, lent->store_len, lent->room, lent->room_len, hcr,
                                   hcr_len, mailbox, mailbox_len);
}

static inline uint32_t ecgslope_lent_submit_engine(const struct ecgslope_lent *lent, uint32_t number, uint32_t index, uint32_t psn,
                                                   uint8_t state)
{
    return ecgslope_submit_engine(lent->device, lent->device_len, lent->store, lent->store_len, lent->room, lent->room_len, number,
                                  index, psn, state);
}

static inline uint32_t ecgslope_lent_step(const struct ecgslope_lent *lent, size_t slot)
{
    return ecgslope_step(lent->device, lent->device_len, lent->store, lent->store_len, lent->room, lent->room_len, slot);
}

static inline uint32_t ecgslope_lent_collect(const struct ecgslope_lent *lent, size_t slot, uint8_t *out, size_t out_len)
{
    return ecgslope_collect(lent->device, lent->device_len, lent->store, lent->store_len, lent->room, lent->room_len, slot, out,
                            out_len);
}

static inline uint32_t ecgslope_lent_reset(const struct ecgslope_lent *lent)
{
    return ecgslope_reset(lent->device, lent->device_len, lent->store, lent->store_len, lent->room, lent->room_len);
}

/* The number returned, and what stands above it. */
static inline uint32_t ecgslope_number(uint32_t answer) { return answer & 0xff; }
static inline uint32_t ecgslope_value(uint32_t answer) { return answer >> 8; }

/* Whether an accepted submission took a slot, and which. */
static inline int ecgslope_took_slot(uint32_t answer) { return ecgslope_value(answer) != 0; }
static inline size_t ecgslope_slot(uint32_t answer) { return (size_t)ecgslope_value(answer) - 1; }

#ifdef __cplusplus
}
#endif

#endif

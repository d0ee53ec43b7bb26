/* The header alone, as C11 and as C++17: its constants, its inline functions, and that a zeroed device is a closed adapter. */
#include <ecgslope.h>

#include <assert.h>
#include <stdio.h>
#include <string.h>

static_assert(ECGSLOPE_DEVICE_BYTES == 32 + 32 * ECGSLOPE_SLOTS, "the header, then a row of eight slots");
static_assert(ECGSLOPE_SLOTS == 8, "eight slots");
static_assert(ECGSLOPE_ROOM_BYTES == 3072, "384 bytes of room for each slot");
static_assert(ECGSLOPE_SLOT_ROOM_BYTES == 256 + 64 + 64, "room for a queue pair, a completion queue and an event queue");
static_assert(ECGSLOPE_ANSWER_BYTES == ECGSLOPE_SLOT_ROOM_BYTES, "the longest answer is what the room of a slot holds");
static_assert(ECGSLOPE_REGISTER_BYTES == 7 * 4, "seven words");
static_assert(ECGSLOPE_FIELDS_BYTES == 32, "the register's fields");
static_assert(ECGSLOPE_QP_MAILBOX_BYTES == 0xa4, "the image of words 00h to A0h");
static_assert(ECGSLOPE_INIT_MAILBOX_BYTES == 64, "INIT_HCA's mailbox");

static_assert(ECGSLOPE_OK == 0 && ECGSLOPE_NOT_SERVED == 2 && ECGSLOPE_BAD_PARAMETER == 3 && ECGSLOPE_BAD_SYSTEM_STATE == 4,
              "numbers of the interface document, table 3-1-5");
static_assert(ECGSLOPE_BUSY == 0x81 && ECGSLOPE_FULL == 0x82 && ECGSLOPE_BAD_LENGTH == 0x83 && ECGSLOPE_NO_REQUEST == 0x84 &&
              ECGSLOPE_NOT_PERMITTED == 0x85 && ECGSLOPE_STILL_RUNNING == 0x86 && ECGSLOPE_IMPOSSIBLE == 0x87 &&
              ECGSLOPE_NOT_FOR_TYPE == 0x88, "numbers of the model");
static_assert(ECGSLOPE_RESET == 0 && ECGSLOPE_INIT == 1 && ECGSLOPE_RTR == 2 && ECGSLOPE_RTS == 3 && ECGSLOPE_SQE == 4 &&
              ECGSLOPE_SQD == 5 && ECGSLOPE_ERR == 6, "states");
static_assert(ECGSLOPE_READ_STATE == 1 && ECGSLOPE_READ_JOINED == 7, "engine requests");
static_assert(ECGSLOPE_INIT_HCA == 0x7 && ECGSLOPE_NOP == 0x31 && ECGSLOPE_QUERY_QP == 0x22 && ECGSLOPE_SQD2SQD_QP == 0x38, "ops");

static int failed;

static void check(int good, const char *what)
{
    if (!good) {
        printf("layout: %s\n", what);
        failed = 1;
    }
}

static void check_answers(void)
{
    check(ecgslope_number(0x87) == ECGSLOPE_IMPOSSIBLE && ecgslope_value(0x87) == 0, "a refusal");
    check(ecgslope_number(0x1700) == ECGSLOPE_OK && ecgslope_value(0x1700) == 23, "a step with 23 bursts left");
    check(ecgslope_value(0x18000) == 384, "a collection of 384 bytes");
    check(!ecgslope_took_slot(0), "a command that takes no slot");
    check(ecgslope_took_slot(0x100) && ecgslope_slot(0x100) == 0, "the first slot");
    check(ecgslope_took_slot(0x800) && ecgslope_slot(0x800) == 7, "the last slot");
}

static void check_zeroed(void)
{
    static uint8_t device[ECGSLOPE_DEVICE_BYTES], room[ECGSLOPE_ROOM_BYTES], zero[ECGSLOPE_DEVICE_BYTES];
    uint8_t hcr[ECGSLOPE_REGISTER_BYTES], fields[ECGSLOPE_FIELDS_BYTES];
    static struct ecgslope_lent lent; /* no store: a closed adapter has none */

    lent.device = device;
    lent.device_len = sizeof device;
    lent.room = room;
    lent.room_len = sizeof room;

    memset(fields, 0, sizeof fields);
    fields[22] = ECGSLOPE_NOP;
    check(ecgslope_write_register(hcr, sizeof hcr, fields, sizeof fields) == ECGSLOPE_OK, "NOP in the register");
    check(hcr[24] == ECGSLOPE_NOP && hcr[26] == 0x80, "word 18h of NOP");
    check(ecgslope_read_register(hcr, sizeof hcr, fields, sizeof fields) == ECGSLOPE_OK && fields[22] == ECGSLOPE_NOP,
          "NOP out of the register");

    check(ecgslope_lent_submit_command(&lent, hcr, sizeof hcr, NULL, 0) == ECGSLOPE_OK, "NOP");
    check(ecgslope_lent_submit_engine(&lent, ECGSLOPE_READ_STATE, 0, 0, 0) == ECGSLOPE_BAD_SYSTEM_STATE, "request 1 while closed");
    check(ecgslope_lent_step(&lent, 0) == ECGSLOPE_NO_REQUEST, "a step of an empty slot");
    check(ecgslope_lent_collect(&lent, 7, NULL, 0) == ECGSLOPE_NO_REQUEST, "a collection of an empty slot");
    check(ecgslope_lent_reset(&lent) == ECGSLOPE_OK, "reset");
    check(memcmp(device, zero, sizeof device) == 0, "closed and empty is all zero");

    lent.device_len--;
    check(ecgslope_lent_reset(&lent) == ECGSLOPE_BAD_LENGTH, "reset of a row that is too short");
}

int main(void)
{
    check_answers();
    check_zeroed();
    return failed;
}

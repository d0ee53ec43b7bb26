/*
 * Lends every buffer against inaccessible pages, and const buffers as memory that cannot be written, so that one byte read or
 * written outside of what was lent ends the run. Every call is made twice on the same bytes: with buffers that end at an
 * inaccessible page, and with buffers that start right behind one. Calls come from a generator: on devices in use, on the same
 * with bits flipped, and on random bytes; with lengths that are right, and with others.
 *
 *     guard [SEED]    all seeds, or one of them
 */
#define _POSIX_C_SOURCE 200809L /* sigaction */
#include "guard.h"

#include <signal.h>
#include <stdio.h>
#include <stdlib.h>
#include <string.h>
#include <unistd.h>

#define SEEDS 24000u
#define CALLS 200u /* of each seed */

#define B(buffer) (1u << (buffer))

static const struct {
    const char *name;
    unsigned lent, constant; /* buffers */
} functions[FUNCTIONS] = {
    [COMMAND] = { "submit_command", B(DEVICE) | B(STORE) | B(ROOM) | B(HCR) | B(MAILBOX), B(HCR) | B(MAILBOX) },
    [ENGINE] = { "submit_engine", B(DEVICE) | B(STORE) | B(ROOM), 0 },
    [STEP] = { "step", B(DEVICE) | B(STORE) | B(ROOM), 0 },
    [COLLECT] = { "collect", B(DEVICE) | B(STORE) | B(ROOM) | B(OUT), B(STORE) | B(ROOM) },
    [RESET] = { "reset", B(DEVICE) | B(STORE) | B(ROOM), B(STORE) | B(ROOM) },
    [READ_REGISTER] = { "read_register", B(HCR) | B(FIELDS), B(HCR) },
    [WRITE_REGISTER] = { "write_register", B(HCR) | B(FIELDS), B(FIELDS) },
};

static struct call call;
static struct scene scene;
static uint64_t seed, calls, accepted[FUNCTIONS], returned[256];
static uint32_t made; /* calls of this seed */
static int possible;  /* the scene's device is known to be: a call on it, as it stood, was not answered with ECGSLOPE_IMPOSSIBLE */
static int at_end;

static void fail(const char *what)
{
    printf("guard: seed %llu, call %u, %s, buffers at the %s of their pages: %s\n", (unsigned long long)seed, (unsigned)made,
           functions[call.function].name, at_end ? "end" : "start", what);
    fflush(stdout);
    _exit(1);
}

static void check(int good, const char *what)
{
    if (!good)
        fail(what);
}

static void on_fault(int signal)
{
    (void)signal;
    fail("touched memory that was not lent, or wrote to a const buffer");
}

static uint8_t *after(int buffer) { return memory_writable((enum buffer)buffer, call.len[buffer], at_end); }

static uint8_t *lent(int buffer)
{
    int constant = (functions[call.function].constant >> buffer & 1) != 0;

    return constant ? memory_read_only((enum buffer)buffer, call.len[buffer], at_end) : after(buffer);
}

static uint32_t make(void)
{
    const size_t *len = call.len;

    for (int buffer = 0; buffer < BUFFERS; buffer++)
        if ((functions[call.function].lent >> buffer & 1) != 0)
            memcpy(after(buffer), call.bytes[buffer], len[buffer]);
    calls++;
    switch (call.function) {
    case COMMAND:
        return ecgslope_submit_command(lent(DEVICE), len[DEVICE], lent(STORE), len[STORE], lent(ROOM), len[ROOM], lent(HCR),
                                       len[HCR], lent(MAILBOX), len[MAILBOX]);
    case ENGINE:
        return ecgslope_submit_engine(lent(DEVICE), len[DEVICE], lent(STORE), len[STORE], lent(ROOM), len[ROOM], call.number,
                                      call.index, call.psn, call.state);
    case STEP:
        return ecgslope_step(lent(DEVICE), len[DEVICE], lent(STORE), len[STORE], lent(ROOM), len[ROOM], call.slot);
    case COLLECT:
        return ecgslope_collect(lent(DEVICE), len[DEVICE], lent(STORE), len[STORE], lent(ROOM), len[ROOM], call.slot, lent(OUT),
                                len[OUT]);
    case RESET:
        return ecgslope_reset(lent(DEVICE), len[DEVICE], lent(STORE), len[STORE], lent(ROOM), len[ROOM]);
    case READ_REGISTER:
        return ecgslope_read_register(lent(HCR), len[HCR], lent(FIELDS), len[FIELDS]);
    default:
        return ecgslope_write_register(lent(HCR), len[HCR], lent(FIELDS), len[FIELDS]);
    }
}

/* Whether a buffer's bytes from one place up to another are those before the call. */
static int same(int buffer, size_t from, size_t to)
{
    return from >= to || memcmp(after(buffer) + from, call.bytes[buffer] + from, to - from) == 0;
}

static int same_but(int buffer, size_t from, size_t to)
{
    return same(buffer, 0, from < call.len[buffer] ? from : call.len[buffer]) && same(buffer, to, call.len[buffer]);
}

static int all_zero(int buffer, size_t from, size_t to)
{
    while (from < to && after(buffer)[from] == 0)
        from++;
    return from == to;
}

/* At most one burst of 16 bytes, of those that start at multiples of 16, has changed. */
static int same_but_burst(int buffer)
{
    size_t first = 0;

    while (first < call.len[buffer] && same(buffer, first, first + 16 < call.len[buffer] ? first + 16 : call.len[buffer]))
        first += 16;
    return same(buffer, first + 16, call.len[buffer]);
}

static void check_refused(uint32_t answer)
{
    check(answer <= 0xff, "a refusal has a value above its number");
    for (int buffer = 0; buffer < BUFFERS; buffer++)
        if ((functions[call.function].lent >> buffer & 1) != 0)
            check(same(buffer, 0, call.len[buffer]), "a refusal changed a byte");
}

static void check_submitted(uint32_t answer)
{
    size_t slot = ecgslope_slot(answer);

    if (!ecgslope_took_slot(answer)) {
        check(call.function == COMMAND, "an engine request was accepted and has no slot");
        check(same_but(DEVICE, 0, 32) && same(ROOM, 0, call.len[ROOM]), "more has changed than the header and the store");
        return;
    }
    check(slot < ECGSLOPE_SLOTS, "a slot past the row");
    check(call.bytes[DEVICE][32 + 32 * slot] == 0 && after(DEVICE)[32 + 32 * slot] == 1, "the slot was not free, or does not run");
    check(same_but(DEVICE, 32 + 32 * slot, 64 + 32 * slot), "another slot has changed");
    check(same(STORE, 0, call.len[STORE]), "a submission changed the store");
    check(same_but(ROOM, ECGSLOPE_SLOT_ROOM_BYTES * slot, ECGSLOPE_SLOT_ROOM_BYTES * slot + ECGSLOPE_QP_MAILBOX_BYTES),
          "a submission changed the room behind the mailbox");
}

/* What the register's reader and writer give, taken back by the other. */
static void check_undone(void)
{
    uint8_t hcr[ECGSLOPE_REGISTER_BYTES], fields[ECGSLOPE_FIELDS_BYTES];

    if (call.function == READ_REGISTER) {
        check(ecgslope_write_register(hcr, sizeof hcr, after(FIELDS), ECGSLOPE_FIELDS_BYTES) == 0, "what was read is not writable");
        check(memcmp(hcr, call.bytes[HCR], sizeof hcr) == 0, "reading and writing gives another register");
        check(same_but(FIELDS, 0, ECGSLOPE_FIELDS_BYTES), "the reader wrote behind the fields");
    } else {
        check(ecgslope_read_register(after(HCR), ECGSLOPE_REGISTER_BYTES, fields, sizeof fields) == 0,
              "what was written is not readable");
        check(memcmp(fields, call.bytes[FIELDS], 26) == 0, "writing and reading gives other fields");
        check(same_but(HCR, 0, ECGSLOPE_REGISTER_BYTES), "the writer wrote behind the register");
    }
}

static void check_accepted(uint32_t answer)
{
    uint32_t value = ecgslope_value(answer);
    size_t slot = 32 + 32 * call.slot;

    switch (call.function) {
    case COMMAND:
    case ENGINE:
        check_submitted(answer);
        break;
    case STEP:
        check(call.slot < ECGSLOPE_SLOTS && value < 24, "no such slot, or more bursts left than any request has");
        check(after(DEVICE)[slot] == (value == 0 ? 2 : 1), "the last burst, and no other, finishes a request");
        check(after(DEVICE)[slot + 2] == call.bytes[DEVICE][slot + 2] + 1, "a step did not count one burst");
        check(same_but(DEVICE, slot, slot + 3) && same(DEVICE, slot + 1, slot + 2), "more has changed than status and bursts");
        check(same_but_burst(STORE) && same_but_burst(ROOM), "a step changed more than a burst");
        break;
    case COLLECT:
        check(value <= call.len[OUT], "an answer longer than its buffer");
        check(same_but(OUT, 0, value), "collecting wrote behind the answer");
        check(call.slot < ECGSLOPE_SLOTS && all_zero(DEVICE, slot, slot + 32), "the slot was not freed");
        check(same_but(DEVICE, slot, slot + 32), "another slot has changed");
        break;
    case RESET:
        check(after(DEVICE)[0] == 0 && all_zero(DEVICE, 32, ECGSLOPE_DEVICE_BYTES), "open, or a slot is occupied, after a reset");
        break;
    default:
        check(value == 0, "a register's answer has a value");
        check_undone();
        break;
    }
}

static const uint8_t numbers[] = { 0, 2, 3, 4, 0x81, 0x82, 0x83, 0x84, 0x85, 0x86, 0x87, 0x88 };

static void check_answer(uint32_t answer)
{
    int device = call.function < READ_REGISTER;

    check(memchr(numbers, (int)ecgslope_number(answer), sizeof numbers) != NULL, "a number that the header has not");
    if ((device && (call.len[DEVICE] != ECGSLOPE_DEVICE_BYTES || call.len[ROOM] < ECGSLOPE_ROOM_BYTES)) ||
        ((call.function == COMMAND || !device) && call.len[HCR] < ECGSLOPE_REGISTER_BYTES) ||
        (!device && call.len[FIELDS] < ECGSLOPE_FIELDS_BYTES))
        check(answer == ECGSLOPE_BAD_LENGTH, "a wrong length was not refused as one");
    if (ecgslope_number(answer) == ECGSLOPE_OK)
        check_accepted(answer);
    else
        check_refused(answer);
}

/* Both placements, compared. Hands back whether there is a device to go on with. */
static int both(void)
{
    static uint8_t left[BUFFERS][CAPACITY];
    uint32_t answer;

    at_end = 0;
    answer = make();
    check_answer(answer);
    for (int buffer = 0; buffer < BUFFERS; buffer++)
        if ((functions[call.function].lent >> buffer & 1) != 0)
            memcpy(left[buffer], after(buffer), call.len[buffer]);

    at_end = 1;
    check(make() == answer, "the answer depends on where the buffers are");
    for (int buffer = 0; buffer < BUFFERS; buffer++)
        if ((functions[call.function].lent >> buffer & 1) != 0)
            check(memcmp(left[buffer], after(buffer), call.len[buffer]) == 0, "the bytes left depend on where the buffers are");

    returned[ecgslope_number(answer)]++;
    accepted[call.function] += ecgslope_number(answer) == ECGSLOPE_OK;
    if (!call.keep || call.function >= READ_REGISTER)
        return 1;
    memcpy(scene.device, left[DEVICE], ECGSLOPE_DEVICE_BYTES);
    memcpy(scene.store, left[STORE], call.len[STORE]);
    memcpy(scene.room, left[ROOM], call.len[ROOM]);
    check(!possible || answer != ECGSLOPE_IMPOSSIBLE, "an earlier call left an impossible device");
    possible = answer != ECGSLOPE_IMPOSSIBLE;
    return possible;
}

int main(int argc, char **argv)
{
    struct sigaction action = { .sa_handler = on_fault };
    uint64_t first = argc > 1 ? strtoull(argv[1], NULL, 0) : 1, last = argc > 1 ? first : SEEDS;
    int missing = 0;

    memory_map();
    sigaction(SIGSEGV, &action, NULL);
    sigaction(SIGBUS, &action, NULL);
    for (seed = first; seed <= last; seed++) {
        int more = 1;

        memset(&call, 0, sizeof call); /* a seed alone makes the same calls as among the others */
        input_seed(seed);
        input_scene(&scene);
        possible = 0;
        for (made = 0; made < CALLS && more; made++) {
            input_call(&scene, &call);
            more = both();
        }
    }
    printf("guard: %llu calls\n", (unsigned long long)calls);
    for (size_t i = 0; i < sizeof numbers; i++) {
        printf("    0x%02x %llu times\n", numbers[i], (unsigned long long)returned[numbers[i]]);
        missing |= returned[numbers[i]] == 0;
    }
    for (int function = 0; function < FUNCTIONS; function++) {
        printf("    %s accepted %llu times\n", functions[function].name, (unsigned long long)accepted[function]);
        missing |= accepted[function] == 0;
    }
    if (argc == 1 && missing)
        printf("guard: a number was never returned, or a function never accepted: the calls do not test enough\n");
    return argc == 1 && missing;
}

#include "guard.h"

#include <string.h>

static uint64_t random_state;

/* splitmix64 */
static uint64_t next(void)
{
    uint64_t z = random_state += 0x9e3779b97f4a7c15u;

    z = (z ^ z >> 30) * 0xbf58476d1ce4e5b9u;
    z = (z ^ z >> 27) * 0x94d049bb133111ebu;
    return z ^ z >> 31;
}

static uint32_t below(uint32_t n) { return (uint32_t)((next() >> 32) * n >> 32); }
static int one_in(uint32_t n) { return below(n) == 0; }

static void fill(uint8_t *bytes, size_t len)
{
    for (size_t i = 0; i < len; i += 8) {
        uint64_t z = next();

        memcpy(bytes + i, &z, len - i < 8 ? len - i : 8);
    }
}

static void put_little(uint8_t *bytes, size_t len, uint64_t value)
{
    for (size_t i = 0; i < len; i++)
        bytes[i] = (uint8_t)(value >> 8 * i);
}

static void put_big(uint8_t *bytes, uint32_t value)
{
    for (size_t i = 0; i < 4; i++)
        bytes[i] = (uint8_t)(value >> (24 - 8 * i));
}

void input_seed(uint64_t seed) { random_state = seed; }

enum table { QPS, CQS, EQS, MPTS, NONE };

struct op {
    uint16_t op;
    uint8_t op_modifier, mailbox_len; /* as the command needs them */
    enum table table;
};

static const struct op ops[] = {
    { ECGSLOPE_SW2HW_MPT, 0, 56, MPTS },   { ECGSLOPE_HW2SW_MPT, 0, 0, MPTS },    { ECGSLOPE_SW2HW_EQ, 0, 48, EQS },
    { ECGSLOPE_HW2SW_EQ, 0, 0, EQS },      { ECGSLOPE_SW2HW_CQ, 0, 56, CQS },     { ECGSLOPE_HW2SW_CQ, 0, 0, CQS },
    { ECGSLOPE_RESIZE_CQ, 0, 8, CQS },     { ECGSLOPE_RST2INIT_QP, 0, 164, QPS }, { ECGSLOPE_INIT2RTR_QP, 0, 164, QPS },
    { ECGSLOPE_RTR2RTS_QP, 0, 164, QPS },  { ECGSLOPE_RTS2RTS_QP, 0, 164, QPS },  { ECGSLOPE_SQE2RTS_QP, 0, 164, QPS },
    { ECGSLOPE_2ERR_QP, 3, 0, QPS },       { ECGSLOPE_RTS2SQD_QP, 0, 0, QPS },    { ECGSLOPE_SQD2RTS_QP, 0, 164, QPS },
    { ECGSLOPE_2RST_QP, 3, 0, QPS },       { ECGSLOPE_QUERY_QP, 0, 0, QPS },      { ECGSLOPE_INIT2INIT_QP, 0, 164, QPS },
    { ECGSLOPE_SQD2SQD_QP, 0, 164, QPS },  { ECGSLOPE_NOP, 0, 0, NONE },          { ECGSLOPE_CLOSE_HCA, 0, 0, NONE },
    { ECGSLOPE_INIT_HCA, 0, 64, NONE },
};
#define OPS (sizeof ops / sizeof *ops)
#define OPS_WITH_SLOT (OPS - 3)

/* Where a record is in the store. */
static size_t record(const struct scene *scene, enum table table, uint32_t index)
{
    size_t at = 0;

    for (int before = 0; before < (int)table; before++)
        at += (size_t)(before == QPS ? 256 : 64) << scene->logs[before];
    return at + (size_t)(table == QPS ? 256 : 64) * index;
}

/* An index that is mostly in range, often the first: so that requests meet on records. */
static uint32_t index_of(const struct scene *scene, enum table table)
{
    uint32_t count = table == NONE ? 0 : 1u << scene->logs[table];

    if (one_in(32))
        return one_in(2) ? count : (uint32_t)next();
    return count == 0 || one_in(3) ? 0 : below(count);
}

/* Somebody writes lent memory: a state and a type, names of queues, an owner; or, at times, any bytes. */
static void poke(struct scene *scene)
{
    uint8_t *qp = scene->store + record(scene, QPS, below(1u << scene->logs[QPS]));
    uint8_t *cq = scene->store + record(scene, CQS, below(1u << scene->logs[CQS]));
    enum table table = CQS + below(3);

    qp[0] = (uint8_t)(below(one_in(8) ? 16 : 7) << 4);
    qp[1] = (uint8_t)below(4);
    put_big(qp + 0x70, index_of(scene, CQS));
    put_big(cq + 0x10, index_of(scene, EQS));
    scene->store[record(scene, table, below(1u << scene->logs[table])) + 63] = (uint8_t)below(one_in(8) ? 256 : 2);
    if (one_in(16))
        fill(scene->store, scene->store_len);
    if (one_in(16))
        fill(scene->room, ECGSLOPE_ROOM_BYTES);
}

/* A slot such as a call might have left, though not always possible beside the others. */
static void slot_at(const struct scene *scene, uint8_t *slot)
{
    static const uint8_t totals[8] = { 0, 1, 2, 2, 2, 2, 16, 24 };
    uint32_t number = 1 + below(7), total = totals[number];
    enum table table = QPS;

    fill(slot, 32);
    slot[0] = (uint8_t)(1 + below(2));
    slot[1] = one_in(4) ? 0 : 1;
    if (slot[1] == 0) {
        const struct op *op = &ops[below(OPS_WITH_SLOT)];

        number = op->op;
        table = op->table;
        slot[3] = op->op_modifier;
        total = table == QPS ? 16 : 4;
    }
    slot[2] = (uint8_t)(slot[0] == 2 ? total : below(total));
    put_little(slot + 4, 2, number);
    put_little(slot + 8, 4, index_of(scene, table));
    put_little(slot + 12, 4, index_of(scene, CQS));
    put_little(slot + 16, 4, index_of(scene, EQS));
    put_little(slot + 20, 4, below(1u << 24));
    slot[24] = (uint8_t)below(7);
}

static void open_header(const struct scene *scene, uint8_t *device)
{
    device[0] = 1;
    memcpy(device + 1, scene->logs, 4);
    put_little(device + 8, 8, scene->store_len);
}

void input_scene(struct scene *scene)
{
    scene->logs[QPS] = (uint8_t)below(4);
    scene->logs[CQS] = (uint8_t)below(4);
    scene->logs[EQS] = (uint8_t)below(3);
    scene->logs[MPTS] = (uint8_t)below(4);
    scene->store_len = record(scene, NONE, 0) + (one_in(2) ? 0 : below(100));
    fill(scene->store, scene->store_len);
    fill(scene->room, ECGSLOPE_ROOM_BYTES);
    memset(scene->device, 0, sizeof scene->device);
    if (one_in(2)) {
        open_header(scene, scene->device);
        for (uint32_t slots = below(5); slots > 0; slots--)
            slot_at(scene, scene->device + 32 + 32 * below(8));
    }
}

static void damage(const struct scene *scene, uint8_t *device)
{
    if (one_in(4)) {
        fill(device, ECGSLOPE_DEVICE_BYTES);
        if (one_in(2))
            open_header(scene, device);
    } else if (one_in(4)) {
        slot_at(scene, device + 32 + 32 * below(8));
    } else {
        for (uint32_t flips = 1 + below(3); flips > 0; flips--) {
            uint32_t part = below(9), byte = 32 * part + below(one_in(4) ? 32 : 6);

            if (device[32 * part] != 0 || one_in(8)) /* a free slot's bytes are not looked at */
                device[byte] ^= (uint8_t)(1u << below(8));
        }
    }
}

/* The slot to step or to collect: mostly one that is as it should be, if there is one. */
static size_t slot_in(const struct scene *scene, uint8_t status)
{
    size_t first = below(8);

    if (one_in(16))
        return one_in(2) ? below(10) : (size_t)next();
    for (size_t i = 0; i < 8; i++)
        if (scene->device[32 + 32 * ((first + i) % 8)] == status)
            return (first + i) % 8;
    return first;
}

static void command(const struct scene *scene, struct call *call)
{
    const struct op *op = &ops[below(OPS_WITH_SLOT)];
    uint8_t *mailbox = call->bytes[MAILBOX], *hcr = call->bytes[HCR];
    uint32_t index, last;

    if (scene->device[0] != 1 && !one_in(4))
        op = &ops[OPS - 1];
    else if (one_in(64))
        op = &ops[OPS_WITH_SLOT + below(3)];
    index = index_of(scene, op->table);
    fill(mailbox, 168);
    call->len[MAILBOX] = op->mailbox_len;
    if (op->op == ECGSLOPE_INIT_HCA && !one_in(8)) {
        mailbox[0x0f] = scene->logs[QPS];
        mailbox[0x17] = scene->logs[CQS];
        mailbox[0x1f] = scene->logs[EQS];
        mailbox[0x37] = scene->logs[MPTS];
        if (one_in(4))
            mailbox[0x0f + 8 * below(6)]++;
    } else if (!one_in(16)) {
        mailbox[1] = (uint8_t)below(4);
        put_big(mailbox + 0x2c, op->op == ECGSLOPE_SW2HW_CQ ? index : index_of(scene, EQS));
        put_big(mailbox + 0x10, index_of(scene, EQS));
        put_big(mailbox + 0x70, index_of(scene, CQS));
    }
    last = 1u << 23 | (uint32_t)op->op_modifier << 12 | op->op;
    if (one_in(16))
        last ^= 1u << below(32);
    fill(hcr, 64);
    put_little(hcr + 8, 4, index);
    if (!one_in(64))
        hcr[20] = hcr[21] = 0;
    if (!one_in(64))
        put_little(hcr + 24, 4, last);
}

static void registers(struct call *call)
{
    uint8_t *hcr = call->bytes[HCR], *fields = call->bytes[FIELDS];

    fill(hcr, 64);
    fill(fields, 64);
    if (!one_in(4)) {
        hcr[20] = hcr[21] = 0;
        hcr[26] = (uint8_t)((hcr[26] & 0x4f) | 0x80);
        hcr[27] = 0;
        fields[23] &= 0x0f;
        fields[25] &= 1;
    }
    call->len[FIELDS] = ECGSLOPE_FIELDS_BYTES;
}

/* How long the answer of a slot is, as far as its bytes tell. */
static size_t answer_len(const uint8_t *slot)
{
    static const uint16_t lens[8] = { 0, 1, 4, 0, 0, 0, 256, 384 };

    if (slot[1] == 1)
        return slot[4] < 8 ? lens[slot[4]] : 0;
    return slot[4] == ECGSLOPE_QUERY_QP ? 256 : 0;
}

static enum function any_function(void)
{
    uint32_t n = below(256);

    return n < 120 ? STEP : n < 170 ? ENGINE : n < 205 ? COMMAND : n < 237 ? COLLECT : n < 238 ? RESET
           : n < 247 ? READ_REGISTER : WRITE_REGISTER;
}

/* One buffer gets a length that it should not have. */
static void odd_length(struct call *call)
{
    size_t *len = &call->len[below(BUFFERS)];
    const size_t lens[] = { 0, 1, *len - (*len > 0), *len + (*len < CAPACITY), below(CAPACITY + 1) };

    *len = lens[below(5)];
}

void input_call(struct scene *scene, struct call *call)
{
    if (one_in(32))
        poke(scene);
    call->function = any_function();
    call->keep = 1;
    memcpy(call->bytes[DEVICE], scene->device, sizeof scene->device);
    memcpy(call->bytes[STORE], scene->store, scene->store_len);
    memcpy(call->bytes[ROOM], scene->room, ECGSLOPE_ROOM_BYTES);
    call->len[DEVICE] = ECGSLOPE_DEVICE_BYTES;
    call->len[STORE] = scene->store_len;
    call->len[ROOM] = ECGSLOPE_ROOM_BYTES;
    call->len[HCR] = ECGSLOPE_REGISTER_BYTES;
    call->number = one_in(16) ? (uint32_t)next() : 1 + below(7);
    call->index = index_of(scene, QPS);
    call->psn = one_in(16) ? (uint32_t)next() : below(1u << 24);
    call->state = (uint8_t)below(one_in(16) ? 256 : 7);
    call->slot = slot_in(scene, call->function == STEP ? 1 : 2);
    if (call->function == COMMAND)
        command(scene, call);
    else if (call->function >= READ_REGISTER)
        registers(call);
    else if (call->function == COLLECT) {
        fill(call->bytes[OUT], ECGSLOPE_ANSWER_BYTES);
        call->len[OUT] = call->slot < 8 ? answer_len(scene->device + 32 + 32 * call->slot) : 0;
    }
    if (one_in(4)) {
        damage(scene, call->bytes[DEVICE]);
        call->keep = 0;
    }
    if (one_in(8)) {
        odd_length(call);
        call->keep = 0;
    }
}

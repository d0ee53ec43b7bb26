// SPDX-License-Identifier: GPL-2.0-or-later
/*
 * The PCI device `ecgslope` for QEMU: BAR0, a timer and guest memory around adapter.c. It is compiled as a shared object that is loaded
 * into Debian's own QEMU, which exports its functions; of QEMU only the headers are read.
 */
#include "qemu/osdep.h"

#include "hw/pci/pci.h"
#include "hw/qdev-properties.h"
#include "migration/vmstate.h"
#include "qapi/error.h"
#include "qemu/module.h"
#include "qemu/timer.h"
#include "qom/object.h"

#include "adapter.h"

#define TYPE_ECGSLOPE "ecgslope"
OBJECT_DECLARE_SIMPLE_TYPE(Ecgslope, ECGSLOPE)

struct Ecgslope {
    PCIDevice pci;
    MemoryRegion bar0, bar2;
    QEMUTimer *timer;
    struct adapter adapter;
    /* properties */
    uint16_t vendor, device;
    uint64_t tick, store, seed, traffic;
    char *order, *trace;
};

static bool memory_read(void *owner, uint64_t address, uint8_t *bytes, size_t len)
{
    return pci_dma_read(owner, address, bytes, len) == MEMTX_OK;
}

static bool memory_write(void *owner, uint64_t address, const uint8_t *bytes, size_t len)
{
    return pci_dma_write(owner, address, bytes, len) == MEMTX_OK;
}

/* The next tick at its time, unless one comes sooner. The virtual clock stands still while the machine is stopped. */
static void set_timer(Ecgslope *s)
{
    unsigned due = adapter_due(&s->adapter);

    if (due > 0)
        timer_mod_anticipate_ns(s->timer, qemu_clock_get_ns(QEMU_CLOCK_VIRTUAL) + due * s->tick);
}

static void tick(void *opaque)
{
    Ecgslope *s = opaque;

    adapter_tick(&s->adapter);
    set_timer(s);
}

static uint64_t bar0_read(void *opaque, hwaddr offset, unsigned size)
{
    Ecgslope *s = opaque;

    return adapter_read(&s->adapter, offset);
}

static void bar0_write(void *opaque, hwaddr offset, uint64_t value, unsigned size)
{
    Ecgslope *s = opaque;

    adapter_write(&s->adapter, offset, value);
    set_timer(s);
}

/* Registers are words of 32 bits. QEMU splits an aligned access of 64 bits in two; others read 0 and write nothing. */
static const MemoryRegionOps bar0_ops = {
    .read = bar0_read,
    .write = bar0_write,
    .endianness = DEVICE_LITTLE_ENDIAN,
    .valid = { .min_access_size = 4, .max_access_size = 8 },
    .impl = { .min_access_size = 4, .max_access_size = 4 },
};

static uint64_t bar2_read(void *opaque, hwaddr offset, unsigned size) { return 0; }
static void bar2_write(void *opaque, hwaddr offset, uint64_t value, unsigned size) { }

static const MemoryRegionOps bar2_ops = {
    .read = bar2_read,
    .write = bar2_write,
    .endianness = DEVICE_LITTLE_ENDIAN,
};

static bool options_are_good(Ecgslope *s, Error **errp)
{
    if (s->order != NULL && strcmp(s->order, "turn") != 0 && strcmp(s->order, "random") != 0) {
        error_setg(errp, "ecgslope: order is turn or random, not %s", s->order);
        return false;
    }
    if (s->tick < 1000 || s->tick > 1000000000) {
        error_setg(errp, "ecgslope: tick, in nanoseconds, is 1000 to 1000000000");
        return false;
    }
    if (s->store > 16 * 1024 * 1024) {
        error_setg(errp, "ecgslope: store is at most 16777216; the greatest device needs 9439232 bytes");
        return false;
    }
    return true;
}

static void card_realize(PCIDevice *pci, Error **errp)
{
    Ecgslope *s = ECGSLOPE(pci);
    const struct adapter_memory memory = { .read = memory_read, .write = memory_write, .owner = pci };
    const struct adapter_options options = {
        .store_len = s->store, .in_turn = s->order == NULL || strcmp(s->order, "turn") == 0,
        .seed = s->seed, .traffic = s->traffic, .trace = s->trace,
    };
    int failed;

    if (!options_are_good(s, errp))
        return;
    failed = adapter_open(&s->adapter, &options, &memory);
    if (failed != 0) {
        error_setg_errno(errp, failed, "ecgslope: the store or the trace");
        return;
    }
    pci_config_set_vendor_id(pci->config, s->vendor);
    pci_config_set_device_id(pci->config, s->device);
    memory_region_init_io(&s->bar0, OBJECT(s), &bar0_ops, s, "ecgslope-bar0", BAR0_BYTES);
    memory_region_init_io(&s->bar2, OBJECT(s), &bar2_ops, s, "ecgslope-bar2", BAR2_BYTES);
    pci_register_bar(pci, 0, PCI_BASE_ADDRESS_SPACE_MEMORY | PCI_BASE_ADDRESS_MEM_TYPE_64, &s->bar0);
    pci_register_bar(pci, 2, PCI_BASE_ADDRESS_SPACE_MEMORY | PCI_BASE_ADDRESS_MEM_TYPE_64, &s->bar2);
    s->timer = timer_new_ns(QEMU_CLOCK_VIRTUAL, tick, s);
}

static void card_exit(PCIDevice *pci)
{
    Ecgslope *s = ECGSLOPE(pci);

    timer_free(s->timer);
    adapter_close(&s->adapter);
}

/* QEMU calls it when the machine is switched on, too. */
static void card_reset(DeviceState *device)
{
    Ecgslope *s = ECGSLOPE(device);

    timer_del(s->timer);
    adapter_power_up(&s->adapter);
}

static Property card_properties[] = {
    DEFINE_PROP_UINT16("vendor", Ecgslope, vendor, ECGSLOPE_PCI_VENDOR),
    DEFINE_PROP_UINT16("device", Ecgslope, device, ECGSLOPE_PCI_DEVICE),
    DEFINE_PROP_UINT64("tick", Ecgslope, tick, 10000),
    DEFINE_PROP_UINT64("store", Ecgslope, store, CALLS_REPLAY_STORE),
    DEFINE_PROP_STRING("order", Ecgslope, order),
    DEFINE_PROP_UINT64("seed", Ecgslope, seed, 1),
    DEFINE_PROP_UINT64("traffic", Ecgslope, traffic, 0),
    DEFINE_PROP_STRING("trace", Ecgslope, trace),
    DEFINE_PROP_END_OF_LIST(),
};

/* A machine with the device in it is neither saved nor moved to another host. */
static const VMStateDescription card_state = { .name = TYPE_ECGSLOPE, .unmigratable = 1 };

/* This file was compiled apart from the QEMU that it is loaded into: the structures that they share have to be the same. */
static void compare_sizes(const char *type, size_t ours)
{
    size_t theirs = object_type_get_instance_size(type);

    if (theirs != ours) {
        fprintf(stderr, "ecgslope: compiled for another QEMU: %s has %zu bytes there and %zu here\n", type, theirs, ours);
        exit(1);
    }
}

static void card_class_init(ObjectClass *class, void *data)
{
    PCIDeviceClass *pci = PCI_DEVICE_CLASS(class);
    DeviceClass *device = DEVICE_CLASS(class);

    compare_sizes(TYPE_PCI_DEVICE, sizeof(PCIDevice));
    compare_sizes(TYPE_MEMORY_REGION, sizeof(MemoryRegion));
    pci->realize = card_realize;
    pci->exit = card_exit;
    pci->vendor_id = ECGSLOPE_PCI_VENDOR;
    pci->device_id = ECGSLOPE_PCI_DEVICE;
    pci->revision = 1;
    pci->class_id = PCI_CLASS_NETWORK_OTHER;
    device->desc = "Ecgslope: the control side of the JingZhao RDMA adapter, over a proved library";
    device->reset = card_reset;
    device->vmsd = &card_state;
    set_bit(DEVICE_CATEGORY_NETWORK, device->categories);
    device_class_set_props(device, card_properties);
}

static const TypeInfo card_type = {
    .name = TYPE_ECGSLOPE,
    .parent = TYPE_PCI_DEVICE,
    .instance_size = sizeof(Ecgslope),
    .class_init = card_class_init,
    .interfaces = (InterfaceInfo[]){ { INTERFACE_CONVENTIONAL_PCI_DEVICE }, { } },
};

static void card_register(void)
{
    type_register_static(&card_type);
}

type_init(card_register)

// SPDX-License-Identifier: GPL-2.0-or-later
/*
 * A driver that claims the device and runs the test's sequence through the kernel's usual calls: managed PCI resources, polled commands,
 * coherent DMA memory for mailboxes. A driver of one's own may start from it.
 */
#include "sequence.h"

#include "../registers.h"

#include <linux/delay.h>
#include <linux/dma-mapping.h>
#include <linux/io.h>
#include <linux/module.h>
#include <linux/pci.h>

static bool traffic;
module_param(traffic, bool, 0444);
MODULE_PARM_DESC(traffic, "the device has engine requests of its own");

uint32_t guest_get(struct guest *guest, uint32_t offset)
{
    return readl((u8 __iomem *)guest->io + offset);
}

void guest_put(struct guest *guest, uint32_t offset, uint32_t value)
{
    writel(value, (u8 __iomem *)guest->io + offset); /* after all writes to memory that came before it */
}

void guest_pause(void) { usleep_range(50, 100); }

static int ecgslope_probe(struct pci_dev *pci, const struct pci_device_id *id)
{
    struct guest *guest = devm_kzalloc(&pci->dev, sizeof *guest, GFP_KERNEL);
    dma_addr_t in, out;
    bool passed;
    int failed;

    if (!guest)
        return -ENOMEM;
    failed = pcim_enable_device(pci);
    if (failed)
        return failed;
    failed = pcim_iomap_regions(pci, BIT(0) | BIT(2), KBUILD_MODNAME);
    if (failed)
        return failed;
    failed = dma_set_mask_and_coherent(&pci->dev, DMA_BIT_MASK(64));
    if (failed)
        return failed;
    pci_set_master(pci);

    guest->io = (__force void *)pcim_iomap_table(pci)[0];
    guest->in = dmam_alloc_coherent(&pci->dev, 2 * GUEST_PAGE, &in, GFP_KERNEL);
    guest->out = dmam_alloc_coherent(&pci->dev, GUEST_PAGE, &out, GFP_KERNEL);
    if (!guest->in || !guest->out)
        return -ENOMEM;
    guest->in_address = in;
    guest->out_address = out;
    guest->traffic = traffic;
    passed = sequence_run(guest);
    guest_say("%s", passed ? "PASS" : "FAIL");
    return passed ? 0 : -EIO;
}

static const struct pci_device_id ecgslope_ids[] = { { PCI_DEVICE(ECGSLOPE_PCI_VENDOR, ECGSLOPE_PCI_DEVICE) }, { } };
MODULE_DEVICE_TABLE(pci, ecgslope_ids);

static struct pci_driver ecgslope_driver = { .name = KBUILD_MODNAME, .id_table = ecgslope_ids, .probe = ecgslope_probe };
module_pci_driver(ecgslope_driver);

MODULE_DESCRIPTION("Test of the Ecgslope adapter in a virtual machine");
MODULE_LICENSE("GPL");

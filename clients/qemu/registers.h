/* SPDX-License-Identifier: GPL-2.0-or-later */
/*
 * What the device and its driver agree on: PCI ids, and BAR0 as in the interface document (tables 3-1-1 to 3-1-4). Shared by the
 * device, the guest's program and the kernel module.
 */
#ifndef REGISTERS_H
#define REGISTERS_H

/* QEMU's own vendor number, which nobody sells cards with, and a device number that no device of QEMU's has. */
#define ECGSLOPE_PCI_VENDOR 0x1234
#define ECGSLOPE_PCI_DEVICE 0xec95

#define BAR0_BYTES 0x100000u /* registers */
#define BAR2_BYTES 0x800000u /* doorbells, which the model does not have */

#define BAR_HCR 0x80000u   /* the command register, seven words */
#define BAR_RESET 0xf0010u /* writing 1 resets */

#define BAR_HCR_WORDS 7
#define BAR_HCR_LAST (BAR_HCR + 0x18) /* status 31:24, go 23, E 22, op_modifier 19:12, op 11:0 */
#define BAR_GO (1u << 23)
#define BAR_EVENT (1u << 22)

#endif

/*
 * BAR0 of the adapter as a virtual machine would have it: registers of 32 bits at offsets (interface document, tables 3-1-2 to
 * 3-1-4), with the Ecgslope library behind them. Writing the command register's last word with go set runs a command to its end.
 */
#ifndef BAR_H
#define BAR_H

#include <ecgslope.h>

#define BAR_HCR 0x80000u   /* the command register, seven words */
#define BAR_RESET 0xf0010u /* writing 1 resets; it reads as 0 again once that is done */

#define BAR_HCR_WORDS (ECGSLOPE_REGISTER_BYTES / 4)
#define BAR_HCR_LAST (BAR_HCR + 0x18) /* status 31:24, go 23, E 22, op_modifier 19:12, op 11:0 */
#define BAR_GO (1u << 23)
#define BAR_EVENT (1u << 22)

/* Host memory that the driver has given the adapter an address of. The library carries addresses and never follows them. */
struct bar_memory {
    uint64_t address;
    uint8_t *bytes;
    size_t len;
};

#define BAR_MEMORIES 8

struct bar {
    struct ecgslope_lent lent;
    uint32_t hcr[BAR_HCR_WORDS];
    uint32_t reset;
    struct bar_memory memory[BAR_MEMORIES];
    size_t memories;
    uint32_t bursts; /* moved by the last command or engine request */
};

void bar_start(struct bar *bar, const struct ecgslope_lent *lent);

/* Gives memory an address; 0 once there are BAR_MEMORIES. */
int bar_lend(struct bar *bar, uint64_t address, uint8_t *bytes, size_t len);

void bar_write(struct bar *bar, uint32_t offset, uint32_t value);
uint32_t bar_read(const struct bar *bar, uint32_t offset);

/*
 * A packet engine's request. On the card the engines sit beside the context store, so that no register is between them.
 * The answer's bytes go to out, its length to len. Hands back the number returned.
 */
uint32_t bar_engine(struct bar *bar, uint32_t number, uint32_t index, uint32_t psn, uint8_t state, uint8_t *out, size_t out_len,
                    size_t *len);

#endif

// SPDX-License-Identifier: GPL-2.0-or-later
/*
 * The first program of the guest. What it does is said by the kernel's command line, whose unknown words become its environment:
 *   ecgslope_test=1     runs the test's sequence through BAR0
 *   ecgslope_traffic=1  the device has traffic, as the test has to know
 *   ecgslope_args=ARGS  parameters for the modules that it loads: those in /drivers, by their names
 *   ecgslope_shell=1    then runs a shell
 * At the end it switches the machine off, whatever happened.
 */
#include "sequence.h"

#include "../registers.h"

#include <dirent.h>
#include <errno.h>
#include <fcntl.h>
#include <stdlib.h>
#include <sys/klog.h>
#include <sys/mman.h>
#include <sys/mount.h>
#include <sys/reboot.h>
#include <sys/stat.h>
#include <sys/syscall.h>
#include <sys/wait.h>
#include <unistd.h>

#define DEVICES "/sys/bus/pci/devices"
#define PAGES 256 /* of which two that lie side by side are looked for */
#define CONSOLE_LEVEL 8 /* klogctl's request, and the level at which all of the kernel's log is shown */

uint32_t guest_get(struct guest *guest, uint32_t offset)
{
    return *(volatile uint32_t *)((char *)guest->io + offset);
}

void guest_put(struct guest *guest, uint32_t offset, uint32_t value)
{
    __sync_synchronize(); /* what was written to a mailbox is there before the register is */
    *(volatile uint32_t *)((char *)guest->io + offset) = value;
}

void guest_pause(void) { usleep(50); }

static bool asked(const char *name)
{
    const char *value = getenv(name);

    return value != NULL && strcmp(value, "1") == 0;
}

static int open_of(const char *device, const char *file, int flags)
{
    char path[512];

    snprintf(path, sizeof path, DEVICES "/%s/%s", device, file);
    return open(path, flags);
}

static unsigned long number_in(const char *device, const char *file)
{
    char text[32] = "";
    int fd = open_of(device, file, O_RDONLY);

    if (fd < 0 || read(fd, text, sizeof text - 1) < 0)
        text[0] = 0;
    close(fd);
    return strtoul(text, NULL, 0);
}

static bool find_device(char name[64])
{
    DIR *devices = opendir(DEVICES);
    struct dirent *entry;

    while (devices != NULL && (entry = readdir(devices)) != NULL) {
        snprintf(name, 64, "%.63s", entry->d_name);
        if (number_in(name, "vendor") == ECGSLOPE_PCI_VENDOR && number_in(name, "device") == ECGSLOPE_PCI_DEVICE)
            return true;
    }
    return false;
}

/* Memory and bus mastering switched on, and BAR0 mapped. */
static bool map_device(struct guest *guest, const char *name)
{
    uint16_t command;
    int config = open_of(name, "config", O_RDWR), bar = open_of(name, "resource0", O_RDWR | O_SYNC);

    if (pread(config, &command, sizeof command, 4) != sizeof command)
        return false;
    command |= 1u << 1 | 1u << 2;
    if (pwrite(config, &command, sizeof command, 4) != sizeof command)
        return false;
    guest->io = mmap(NULL, BAR0_BYTES, PROT_READ | PROT_WRITE, MAP_SHARED, bar, 0);
    close(config);
    close(bar);
    return guest->io != MAP_FAILED;
}

/* The physical address of a page, by the kernel's own table; 0 if it is not known. */
static uint64_t physical(const void *page)
{
    uint64_t entry = 0;
    int fd = open("/proc/self/pagemap", O_RDONLY);

    if (pread(fd, &entry, sizeof entry, (off_t)((uintptr_t)page / GUEST_PAGE * sizeof entry)) != sizeof entry)
        entry = 0;
    close(fd);
    return (entry & ((1ull << 55) - 1)) * GUEST_PAGE;
}

/* Puts two of the pages that lie side by side in memory side by side here, too, as the mailbox; another page is for answers. */
static bool find_mailboxes(struct guest *guest, uint8_t *pages)
{
    static uint64_t at[PAGES];
    uint8_t *window = mmap(NULL, 2 * GUEST_PAGE, PROT_NONE, MAP_PRIVATE | MAP_ANONYMOUS, -1, 0);
    size_t low = 1, high = 1;

    for (size_t i = 0; i < PAGES; i++)
        at[i] = physical(pages + i * GUEST_PAGE);
    while (low < PAGES && at[high] != at[low] + GUEST_PAGE)
        if (++high == PAGES) {
            high = 1;
            low++;
        }
    if (low == PAGES || at[low] == 0 || window == MAP_FAILED)
        return false;
    mremap(pages + low * GUEST_PAGE, GUEST_PAGE, GUEST_PAGE, MREMAP_MAYMOVE | MREMAP_FIXED, window);
    mremap(pages + high * GUEST_PAGE, GUEST_PAGE, GUEST_PAGE, MREMAP_MAYMOVE | MREMAP_FIXED, window + GUEST_PAGE);
    guest->in = window;
    guest->in_address = at[low];
    guest->out = pages;
    guest->out_address = at[0];
    return physical(window) == at[low] && physical(window + GUEST_PAGE) == at[high];
}

static bool test(void)
{
    struct guest guest = { .traffic = asked("ecgslope_traffic") };
    char name[64];
    uint8_t *pages =
        mmap(NULL, PAGES * GUEST_PAGE, PROT_READ | PROT_WRITE, MAP_PRIVATE | MAP_ANONYMOUS | MAP_POPULATE | MAP_LOCKED, -1, 0);

    if (!find_device(name) || !map_device(&guest, name)) {
        guest_say("there is no device that can be mapped");
        return false;
    }
    guest_say("device %s", name);
    if (pages == MAP_FAILED || !find_mailboxes(&guest, pages)) {
        guest_say("there is no memory for mailboxes");
        return false;
    }
    return sequence_run(&guest);
}

static void load(const char *name)
{
    const char *arguments = getenv("ecgslope_args");
    char path[300];
    int fd;

    snprintf(path, sizeof path, "/drivers/%s", name);
    fd = open(path, O_RDONLY);
    if (syscall(SYS_finit_module, fd, arguments == NULL ? "" : arguments, 0) == 0)
        guest_say("loaded %s", name);
    else
        guest_say("not loaded: %s: %s", name, strerror(errno));
    close(fd);
}

static void load_drivers(void)
{
    struct dirent **names;
    int n = scandir("/drivers", &names, NULL, alphasort);

    for (int i = 0; i < n; i++)
        if (names[i]->d_name[0] != '.')
            load(names[i]->d_name);
}

static void shell(void)
{
    pid_t child = fork();

    if (child == 0) {
        setenv("PATH", "/bin", 1);
        setenv("PS1", "guest# ", 1);
        /* The serial line as its terminal, so that there is job control. */
        execl("/bin/busybox", "sh", "-c", "/bin/busybox --install -s /bin; exec setsid -c sh </dev/ttyS0 >/dev/ttyS0 2>&1", (char *)NULL);
        _exit(1);
    }
    waitpid(child, NULL, 0);
}

int main(void)
{
    int console;

    mkdir("/sys", 0755);
    mkdir("/proc", 0755);
    mkdir("/dev", 0755);
    mount("sysfs", "/sys", "sysfs", 0, NULL);
    mount("proc", "/proc", "proc", 0, NULL);
    mount("devtmpfs", "/dev", "devtmpfs", 0, NULL);
    console = open("/dev/console", O_RDWR);
    for (int fd = 0; fd < 3; fd++)
        dup2(console, fd);
    setvbuf(stdout, NULL, _IOLBF, 0);

    if (asked("ecgslope_test"))
        guest_say("%s", test() ? "PASS" : "FAIL");
    klogctl(CONSOLE_LEVEL, NULL, CONSOLE_LEVEL); /* the kernel was told to be quiet so far */
    load_drivers();
    if (asked("ecgslope_shell"))
        shell();
    sync();
    reboot(RB_POWER_OFF);
    for (;;)
        pause();
}

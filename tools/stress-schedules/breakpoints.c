// Breakpoints on the atomic instructions of the program: see scheduler.c.
//
// Each instruction begins with a breakpoint (int3). The handler takes a step, and goes on in a copy of the instruction, behind
// which stands a jump back to the program. Behind the copy of a compare and exchange stands a second breakpoint, which sees
// whether the exchange was made.
#define _GNU_SOURCE
#include <errno.h>
#include <link.h>
#include <signal.h>
#include <stdint.h>
#include <stdio.h>
#include <string.h>
#include <sys/mman.h>
#include <ucontext.h>

#include "scheduler.h"

#define MOST_SITES 8192
#define COPY 32 // bytes of an instruction's copy with its way back

struct site {
    uintptr_t at;
    int length;
    char kind;
};

static struct site sites[MOST_SITES]; // by rising address
static int site_count;
static uintptr_t base, copies;

static int site_at(uintptr_t address) {
    int low = 0, high = site_count;
    while (low < high) {
        int middle = (low + high) / 2;
        if (sites[middle].at < address)
            low = middle + 1;
        else
            high = middle;
    }
    return low < site_count && sites[low].at == address ? low : -1;
}

static void on_trap(int number, siginfo_t *info, void *context) {
    (void)number, (void)info;
    int kept = errno;
    greg_t *registers = ((ucontext_t *)context)->uc_mcontext.gregs;
    uintptr_t address = registers[REG_RIP] - 1;
    if (address >= copies && address < copies + COPY * (uintptr_t)site_count) {
        // behind the copy of a compare and exchange, which clears the zero flag if it missed
        int site = (address - copies) / COPY;
        if (!(registers[REG_EFL] & 0x40))
            note_miss(site);
        registers[REG_RIP] = sites[site].at + sites[site].length;
    } else {
        int site = site_at(address);
        if (site < 0)
            give_up(UNREADY, "the program met a breakpoint that isn't the scheduler's");
        step(STEP, site);
        registers[REG_RIP] = copies + COPY * (uintptr_t)site;
    }
    errno = kept;
}

static int program_base(struct dl_phdr_info *info, size_t size, void *data) {
    (void)size, (void)data;
    base = info->dlpi_addr; // the program is the first that is told
    return 1;
}

static void read_sites(const char *path) {
    unsigned long offset;
    FILE *file = fopen(path, "r");
    if (!file)
        give_up(UNREADY, "the file of SHRINKERS_SITES can't be read");
    dl_iterate_phdr(program_base, NULL);
    for (struct site *it = sites; fscanf(file, "%lx %d %c %*s", &offset, &it->length, &it->kind) == 3; it++) {
        it->at = base + offset;
        if (++site_count == MOST_SITES)
            give_up(UNREADY, "too many atomic instructions");
    }
    fclose(file);
}

// Copies an instruction, and puts behind it the way back: a breakpoint, or `jmp [rip]` with the address.
static void copy_site(int number) {
    static const uint8_t jump[] = {0xff, 0x25, 0, 0, 0, 0};
    struct site *it = &sites[number];
    uint8_t *copy = (uint8_t *)(copies + COPY * (uintptr_t)number);
    uintptr_t back = it->at + it->length;
    memcpy(copy, (void *)it->at, it->length);
    if (it->kind == 'c') {
        copy[it->length] = 0xcc;
    } else {
        memcpy(copy + it->length, jump, sizeof jump);
        memcpy(copy + it->length + sizeof jump, &back, sizeof back);
    }
}

static void copy_sites(void) {
    int rights = PROT_READ | PROT_WRITE | PROT_EXEC;
    void *room = mmap(NULL, COPY * (size_t)site_count, rights, MAP_PRIVATE | MAP_ANONYMOUS, -1, 0);
    uintptr_t low = sites[0].at & ~4095ul, high = (sites[site_count - 1].at & ~4095ul) + 4096;
    if (room == MAP_FAILED || mprotect((void *)low, high - low, rights))
        give_up(UNREADY, "this system lets no breakpoints be put into the program");
    copies = (uintptr_t)room;
    for (int i = 0; i < site_count; i++)
        copy_site(i);
}

void set_breakpoints(const char *path) {
    struct sigaction on = {.sa_sigaction = on_trap, .sa_flags = SA_SIGINFO | SA_RESTART | SA_NODEFER};
    read_sites(path);
    if (!site_count)
        return;
    sigaction(SIGTRAP, &on, NULL);
    copy_sites();
    for (int i = 0; i < site_count; i++)
        *(uint8_t *)sites[i].at = 0xcc;
}


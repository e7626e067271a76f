#include "bases.h"

#include <asm/prctl.h>
#include <sys/auxv.h>
#include <sys/syscall.h>

/* No function here uses the C library: fs may be anything. */
static uint64_t own_fs, own_gs;
static int by_instruction; /* bit 1 of AT_HWCAP2: the kernel lets programs use WRFSBASE */

static long arch_prctl(long what, uint64_t value) {
    long result;
    __asm__ volatile("syscall" : "=a"(result) : "a"(SYS_arch_prctl), "D"(what), "S"(value) : "rcx", "r11", "memory");
    return result;
}

void keep_own_bases(void) {
    by_instruction = (getauxval(AT_HWCAP2) & 2) != 0;
    take_bases(&own_fs, &own_gs);
}

void take_bases(uint64_t *fs, uint64_t *gs) {
    arch_prctl(ARCH_GET_FS, (uint64_t)(uintptr_t)fs);
    arch_prctl(ARCH_GET_GS, (uint64_t)(uintptr_t)gs);
}

void set_bases(uint64_t fs, uint64_t gs) {
    if (by_instruction) {
        __asm__ volatile("wrfsbase %0\n\twrgsbase %1" : : "r"(fs), "r"(gs));
        return;
    }
    arch_prctl(ARCH_SET_FS, fs);
    arch_prctl(ARCH_SET_GS, gs);
}

void set_own_bases(void) { set_bases(own_fs, own_gs); }

void clear_bases(void) { set_bases(0, 0); }

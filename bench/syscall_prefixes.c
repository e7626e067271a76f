/* Shows which prefixes leave 0F 05 a system call: runs it behind each of them as getpid, and prints the address before and
   after it, rcx before and after, and whether rax has the answer. */
#define _GNU_SOURCE
#include <signal.h>
#include <stdint.h>
#include <stdio.h>
#include <stdlib.h>
#include <string.h>
#include <sys/mman.h>
#include <sys/syscall.h>
#include <ucontext.h>
#include <unistd.h>

enum { CODE = 0x401000, PAGE = 4096, CALL_SIZE = 2, RET = 0xc3 };

static const struct {
    uint8_t bytes[4];
    int size;
} PREFIXES[] = { { { 0 }, 0 },          { { 0xf2 }, 1 },       { { 0xf3 }, 1 },       { { 0xf2, 0xf3 }, 2 },
                 { { 0x66 }, 1 },       { { 0x67 }, 1 },       { { 0x2e }, 1 },       { { 0x64 }, 1 },
                 { { 0x48 }, 1 },       { { 0xf3, 0x48 }, 2 }, { { 0xf3, 0x66 }, 2 }, { { 0xf0 }, 1 } };

static volatile int refused;

/* An instruction that is refused is skipped: the handler goes on at the RET behind it. */
static void on_refusal(int sig, siginfo_t *info, void *frame) {
    greg_t *gregs = ((ucontext_t *)frame)->uc_mcontext.gregs;
    (void)info;
    refused = sig;
    while (*(uint8_t *)gregs[REG_RIP] != RET)
        gregs[REG_RIP]++;
}

int main(void) {
    struct sigaction action = { .sa_sigaction = on_refusal, .sa_flags = SA_SIGINFO };
    uint8_t *code = mmap((void *)CODE, PAGE, PROT_READ | PROT_WRITE | PROT_EXEC,
                         MAP_PRIVATE | MAP_ANONYMOUS | MAP_FIXED_NOREPLACE, -1, 0);
    if (code != (uint8_t *)CODE || sigaction(SIGILL, &action, NULL) || sigaction(SIGSEGV, &action, NULL)) {
        perror("syscall_prefixes");
        return 1;
    }
    for (size_t one = 0; one < sizeof PREFIXES / sizeof *PREFIXES; one++) {
        int size = PREFIXES[one].size;
        uint64_t rax = SYS_getpid, rcx = 7, next = CODE + (uint64_t)size + CALL_SIZE;
        memcpy(code, PREFIXES[one].bytes, (size_t)size);
        memcpy(code + size, (uint8_t[]){ 0x0f, 0x05, RET }, 3);
        refused = 0;
        __asm__ volatile("call *%2" : "+a"(rax), "+c"(rcx) : "r"((uint64_t)CODE) : "r11", "memory", "cc");
        printf("syscall ");
        for (int at = 0; at < size + CALL_SIZE; at++)
            printf("%02x", code[at]);
        if (refused)
            printf(" %x refused with signal %d\n", CODE, refused);
        else
            printf(" %x>%llx rcx=7>%llx, %s\n", CODE, (unsigned long long)next, (unsigned long long)rcx,
                   rax == (uint64_t)getpid() ? "and the system has answered" : "and the system hasn't answered");
    }
    return 0;
}

/* Writes what the kernel tells it by the vector that lies behind its environment: its table of program headers, their number, its entry. Built
   without the C library, which reads the table where there is one. A table may be put into `place`. */
#include <elf.h>
#include <sys/syscall.h>
char place[1024] = "place for a table";
static long call(long number, long a, const void *b, long c) {
  long answer;
  __asm__ volatile("syscall" : "=a"(answer) : "a"(number), "D"(a), "S"(b), "d"(c) : "rcx", "r11", "memory");
  return answer;
}
__attribute__((used)) void tell(const unsigned long *stack) {
  unsigned long told[3] = {0};
  const Elf64_auxv_t *it;
  for (stack += *stack + 2; *stack; stack++)
    ;
  for (it = (const void *)(stack + 1); it->a_type != AT_NULL; it++) {
    told[0] = it->a_type == AT_PHDR ? it->a_un.a_val : told[0];
    told[1] = it->a_type == AT_PHNUM ? it->a_un.a_val : told[1];
    told[2] = it->a_type == AT_ENTRY ? it->a_un.a_val : told[2];
  }
  call(SYS_write, 1, told, sizeof told);
  call(SYS_exit, 0, 0, 0);
}
__asm__(".globl _start\n.type _start, @function\n_start: mov %rsp, %rdi\nand $-16, %rsp\ncall tell\nhlt\n.size _start, .-_start");

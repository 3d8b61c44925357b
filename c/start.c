/* What starts a program that has a main and no C library: its answer is how the program ends. */
int main(void);

__asm__(".globl _start\n_start: and $-16, %rsp\n call begin\n");

void begin(void);
void begin(void) {
    __asm__ volatile("syscall" : : "a"(60L), "D"((long)main()) : "rcx", "r11", "memory");
    for (;;) {}
}

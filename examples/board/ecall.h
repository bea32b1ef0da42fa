// The machine's environment calls.
#ifndef ECALL_H
#define ECALL_H

enum { WRITE = 64, EXIT = 93, SET_BREAK = 214 };

static long call(long number, long first, long second, long third) {
    register long a0 asm("a0") = first;
    register long a1 asm("a1") = second;
    register long a2 asm("a2") = third;
    register long a7 asm("a7") = number;
    asm volatile("ecall" : "+r"(a0) : "r"(a1), "r"(a2), "r"(a7) : "memory");
    return a0;
}

#endif

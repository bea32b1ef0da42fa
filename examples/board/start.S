# Where every hart begins: with its number in a0, the number of harts in a1 and its own stack in sp.
# Memory is zero where the program has no bytes, so there is no .bss to clear.
        .file   "start.S"
        .section .text.start, "ax"
        .globl  _start
        .type   _start, @function
_start:
        .option push
        .option norelax
        la      gp, __global_pointer$
        .option pop
        bnez    a0, 1f
        la      tp, __tls_base          # errno of picolibc lies there; further harts use no library
        la      t0, hart_count
        sw      a1, 0(t0)
#ifdef NO_CONSTRUCTORS
        call    main
        call    _exit
#else
        call    __libc_init_array       # .preinit_array, .init_array
        lw      a0, board_argc
        la      a1, board_argv
        call    main
        call    exit                    # what atexit was given, and destructors
#endif
1:      call    help
        .weak   help                    # a program that has no help(hart) for further harts lets them wait here
help:
2:      j       2b
        .size   _start, . - _start

        .comm   hart_count, 4, 4        # a program that declares `extern volatile unsigned hart_count` reads it

#include "mcount.S"

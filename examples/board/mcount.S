# Functions that are built with -pg call _mcount first: their caller's return address is in a0, and ra is the return
# address of the call here. The profiler counts the call when the pc arrives, and goes back with all registers kept.
# The instruction runs only where nothing profiles.
        .section .text._mcount, "ax"
        .globl  _mcount
        .type   _mcount, @function
_mcount:
        ret
        .size   _mcount, . - _mcount

# moncontrol(0) switches profiling off and moncontrol(1) on: it too is seen when the pc arrives. A function in C that does
# nothing isn't even called where the compiler sees it. A program that has one of its own takes that.
        .weak   moncontrol
        .type   moncontrol, @function
moncontrol:
        ret
        .size   moncontrol, . - moncontrol

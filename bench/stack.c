// How much of the stack a call takes: what lies below is painted before the call and looked at after it.
#include "stack.h"

enum { PAINTED = 4 << 20, PAINT = 0x5A };

// Both have the same array in the same place, and the call between them has its own there too.
__attribute__((noinline)) static void paint(void)
{
    volatile byte below[PAINTED];
    for (size i = 0; i < PAINTED; i++) below[i] = PAINT;
}

__attribute__((noinline)) static size not_painted(void)
{
    volatile byte below[PAINTED];
    size i = 0;
    while (i < PAINTED && below[i] == PAINT) i++;
    return PAINTED - i;
}

size stack_of(operation *called)
{
    paint();
    called();
    return not_painted();
}

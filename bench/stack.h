// How much of the stack a call takes.
#ifndef STACK_H
#define STACK_H

#include "native.h"

typedef u64 operation(void);

size stack_of(operation *called);

#endif

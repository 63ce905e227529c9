/* Stack use of a call, by painting. */
#ifndef STACK_H
#define STACK_H

#include "calls.h"

/* Bytes of stack that the call writes to, to within its return address and what do_call keeps. */
size_t stack_of(enum call call, const struct input *input);

#endif

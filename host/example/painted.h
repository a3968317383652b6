/* How deep the stack of a function goes: it runs on a stack that was painted with one byte, and what it painted over counts. */

#ifndef PAINTED_H
#define PAINTED_H

#define _XOPEN_SOURCE 700

#include <stdio.h>
#include <stdlib.h>
#include <string.h>
#include <ucontext.h>

#define PAINTED_SIZE (1u << 20)
#define PAINT 0xa5

static unsigned char painted[PAINTED_SIZE];
static ucontext_t painted_from, painted_on;

static size_t depth(void (*work)(void)) {
    size_t left = 0;
    memset(painted, PAINT, PAINTED_SIZE);
    getcontext(&painted_on);
    painted_on.uc_stack.ss_sp = painted;
    painted_on.uc_stack.ss_size = PAINTED_SIZE;
    painted_on.uc_link = &painted_from;
    makecontext(&painted_on, work, 0);
    swapcontext(&painted_from, &painted_on);
    while (left < PAINTED_SIZE && painted[left] == PAINT)
        left++;
    return PAINTED_SIZE - left;
}

#endif

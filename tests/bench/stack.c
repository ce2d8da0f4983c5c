/* Measures how much stack one call of each exported function uses: the call runs on a stack of its own that was painted
 * before, and what is no longer paint has been used. Reads a file on standard input. */
#include <stdint.h>
#include <stdio.h>
#include <string.h>
#include <ucontext.h>

#include "bay.h"

enum { STACK = 1 << 20, PAINT = 0xA5 };

static _Alignas(16) uint8_t stack[STACK];
static uint8_t file[4096], buffer[4096];
static size_t length;
static ucontext_t caller, callee;

static void text(void) { bay_text(file, length, buffer, sizeof buffer); }
static void judge(void) { bay_judge(file, length, buffer, sizeof buffer); }
static void report(void) { bay_report(file, length, buffer, sizeof buffer); }
static void rewrite(void) { bay_rewrite(file, length, buffer, sizeof buffer); }
static void nothing(void) {}

static size_t used(void (*call)(void))
{
    memset(stack, PAINT, STACK);
    getcontext(&callee);
    callee.uc_stack.ss_sp = stack;
    callee.uc_stack.ss_size = STACK;
    callee.uc_link = &caller;
    makecontext(&callee, call, 0);
    swapcontext(&caller, &callee);
    size_t free_bytes = 0;
    while (free_bytes < STACK && stack[free_bytes] == PAINT) free_bytes++;
    return STACK - free_bytes;
}

int main(void)
{
    length = fread(file, 1, sizeof file, stdin);
    size_t own = used(nothing); /* what the switch of stacks takes by itself */
    printf("bay_text %zu\nbay_judge %zu\nbay_report %zu\nbay_rewrite %zu\n", used(text) - own, used(judge) - own,
           used(report) - own, used(rewrite) - own);
    return 0;
}

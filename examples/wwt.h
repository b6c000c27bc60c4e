/*
 * The environment calls and the annotations of wwt, each as a function. A call is the instruction ecall with its number
 * in a7, its argument in a0 and its answer in a0, or in a0 and a1. No call changes memory or any other register.
 *
 * An annotation tells what the node is going to do with the block of shared memory that an address lies in. It changes
 * nothing that a program can see but the time that its work takes.
 *
 * What is declared with WWT_SHARED stands in shared memory where machine.ld lays the program out: all nodes have it in
 * common. Of all else each node has its own.
 *
 * Compiled for another processor than RISC-V, or with -DHOST, the same functions are those of a machine with one node,
 * and put their bytes out by putchar, so that what a program prints here and there can be compared. The host's clock
 * stands still.
 */
#ifndef WWT_H
#define WWT_H

#include <stdint.h>

/* How many bytes a block of shared memory has: block_bytes of the machine. -DWWT_BLOCK=64 is for blocks of 64 bytes. */
#ifndef WWT_BLOCK
#define WWT_BLOCK 32
#endif

/* Begins a block. A struct type that is declared so has its blocks to itself, each value of it. */
#define WWT_ALIGNED __attribute__((aligned(WWT_BLOCK)))

/* As many nodes as the program serves. -DWWT_MOST_NODES=256 is for machines of any size. */
#ifndef WWT_MOST_NODES
#define WWT_MOST_NODES 32
#endif

#if defined __riscv && !defined HOST

enum wwt_call {
    WWT_PUT_BYTE = 1,
    WWT_NODE = 2,
    WWT_NODES = 3,
    WWT_CLOCK = 4,
    WWT_BARRIER = 5,
    WWT_EXIT = 93
};

/* Does the call of this number, and returns what a0 holds after it. */
static inline uint32_t wwt_do(uint32_t call, uint32_t argument)
{
    register uint32_t a0 __asm__("a0") = argument;
    register uint32_t a7 __asm__("a7") = call;
    __asm__ volatile("ecall" : "+r"(a0) : "r"(a7) : "memory");
    return a0;
}

/* Puts a byte out. */
static inline void wwt_put_byte(uint8_t byte)
{
    wwt_do(WWT_PUT_BYTE, byte);
}

/* The number of the node that the program runs on, counted from 0. */
static inline uint32_t wwt_node(void)
{
    return wwt_do(WWT_NODE, 0);
}

/* How many nodes the machine has. */
static inline uint32_t wwt_nodes(void)
{
    return wwt_do(WWT_NODES, 0);
}

/* The node's time, in cycles of the simulated machine. */
static inline uint64_t wwt_clock(void)
{
    register uint32_t a0 __asm__("a0");
    register uint32_t a1 __asm__("a1");
    register uint32_t a7 __asm__("a7") = WWT_CLOCK;
    __asm__ volatile("ecall" : "=r"(a0), "=r"(a1) : "r"(a7) : "memory");
    return (uint64_t)a1 << 32 | a0;
}

/* Waits until every node has come to the barrier. */
static inline void wwt_barrier(void)
{
    wwt_do(WWT_BARRIER, 0);
}

/* Ends the program on this node by a code. 0 says that all is well. */
__attribute__((noreturn)) static inline void wwt_exit(uint32_t code)
{
    wwt_do(WWT_EXIT, code);
    __builtin_unreachable();
}

#define WWT_SHARED __attribute__((section(".shared")))

/* The first address of shared memory. */
#define WWT_SHARED_BASE 0x80000000u

/* The block will be read: it is fetched, and the node waits for it. */
static inline void wwt_check_out_s(const volatile void *block)
{
    __asm__ volatile(".insn i 0x0b, 0, x0, %0, 0" : : "r"(block) : "memory");
}

/* The block will be written: it is fetched for this node alone, and the node waits for it. */
static inline void wwt_check_out_x(const volatile void *block)
{
    __asm__ volatile(".insn i 0x0b, 1, x0, %0, 0" : : "r"(block) : "memory");
}

/* The block isn't used for now: it is given back to its home. */
static inline void wwt_check_in(const volatile void *block)
{
    __asm__ volatile(".insn i 0x0b, 2, x0, %0, 0" : : "r"(block) : "memory");
}

#else

#include <stdio.h>
#include <stdlib.h>

static inline void wwt_put_byte(uint8_t byte)
{
    putchar(byte);
}

static inline uint32_t wwt_node(void)
{
    return 0;
}

static inline uint32_t wwt_nodes(void)
{
    return 1;
}

static inline uint64_t wwt_clock(void)
{
    return 0;
}

static inline void wwt_barrier(void)
{
}

__attribute__((noreturn)) static inline void wwt_exit(uint32_t code)
{
    exit((int)code);
}

#define WWT_SHARED

static inline void wwt_check_out_s(const volatile void *block)
{
    (void)block;
}

static inline void wwt_check_out_x(const volatile void *block)
{
    (void)block;
}

static inline void wwt_check_in(const volatile void *block)
{
    (void)block;
}

#endif

#endif

/* Statuses of the functions of Fanughespu, and what each asks of its caller, for C and C++. fanughespu.h and the header of a library for
 * types of one's own include this.
 *
 * Each function ends, and reads and writes only the memory that its arguments name, if its caller keeps these rules:
 *
 * - `const uint8_t *x, size_t x_length` are octets that are read, and `uint8_t *x, size_t x_length` octets that may be written. The
 *   pointer may be NULL if the length is 0. A length is below 2^63.
 * - Variables that a function writes have a value before (`size_t position = 0;`).
 * - Memory that is written overlaps no other memory of the call, and no other thread uses it during the call.
 * - malloc, realloc and free belong to one allocator. No call is made in a signal handler, nor in the child of a fork of a process
 *   with threads.
 *
 * No memory is kept after a call, so there is nothing to free, and threads may call at once. A result goes into the memory of the
 * caller, from its front on, without a zero at its end, and its length into *size, also with FAN_ROOM. So a call with a length of 0
 * asks for the length. Positions are those of octets, from 0. With a status that has no result the memory for it is as before. */
#ifndef FAN_CALLS_H
#define FAN_CALLS_H

#include <stdbool.h>
#include <stddef.h>
#include <stdint.h>

enum {
    FAN_OK = 0,     /* the function did what its comment says */
    FAN_FAULT = 1,  /* the octets are at fault */
    FAN_ROOM = 2,   /* the result needs *size octets; the memory is as before */
    FAN_MEMORY = 3, /* malloc or realloc failed */
    FAN_DEEP = 4    /* nested more than 64 deep: constructed elements, or scopes of a value */
};

#endif

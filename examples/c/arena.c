/* The three functions by which the library takes memory, for a program without malloc: an arena of a few KiB, which is empty again once all
 * its blocks were given back, as they are when a call returns. To be linked in place of the archive of the kit. */
#include "modbus.h"

#include <string.h>

#ifndef ARENA
#define ARENA 8192
#endif

static _Alignas(16) uint8_t arena[ARENA];
static size_t used, live;
size_t arena_peak;

modbus_block rattle_alloc(size_t size, size_t align) {
    (void)align; /* at most 16 */
    size_t wanted = (size + 15) & ~(size_t)15;
    if (wanted < size || wanted > ARENA - used) {
        return (modbus_block){0, arena};
    }
    modbus_block given = {1, arena + used};
    used += wanted;
    live++;
    if (used > arena_peak) {
        arena_peak = used;
    }
    return given;
}

void rattle_dealloc(void *at, size_t size, size_t align) {
    (void)at;
    (void)size;
    (void)align;
    live--;
    if (live == 0) {
        used = 0;
    }
}

modbus_block rattle_realloc(void *at, size_t old, size_t size, size_t align) {
    modbus_block given = rattle_alloc(size, align);
    if (given.is_given) {
        memcpy(given.at, at, old < size ? old : size);
        rattle_dealloc(at, old, align);
    }
    return given;
}

/*
 * Memory: the hypervisor's own, which is mapped since the library needs Normal memory; the guest's, which is all that
 * the guest gets to see; and two functions that the library and the compiler ask for.
 */
#include "core.h"
#include "guest/calls.h"
#include "hypervisor.h"

#define GIGABYTE 0x40000000ull

/* Descriptors, as both stages have them; then what differs. */
#define BLOCK 1ull
#define TABLE 3ull
#define SHARED (3ull << 8)
#define ACCESSED (1ull << 10)

#define NEVER_EXECUTED (1ull << 54)
#define READ_WRITE (1ull << 6)
#define DEVICE (0ull << 2)
#define NORMAL (1ull << 2)
#define DEVICE_THEN_NORMAL 0xFF04

#define GUEST_READ_WRITE (3ull << 6)
#define GUEST_NORMAL (15ull << 2)

/* Of a translation control register: its tables are cached like other memory. */
#define TABLES_CACHED (3u << 12 | 1u << 10 | 1u << 8)

typedef uint64_t table[512] __attribute__((aligned(4096)));

static uint64_t address_of(const void *memory) { return (uint64_t)memory; }

/* Addresses are what they are without a map: devices in the first gigabyte, memory in the second. */
void map_hypervisor(void) {
    static table map;
    map[0] = 0 * GIGABYTE | BLOCK | ACCESSED | READ_WRITE | DEVICE | NEVER_EXECUTED;
    map[1] = 1 * GIGABYTE | BLOCK | ACCESSED | READ_WRITE | NORMAL | SHARED;
    write_register(MAIR_EL2, DEVICE_THEN_NORMAL);
    write_register(TCR_EL2, 1u << 31 | 1u << 23 | TABLES_CACHED | 25); /* 39 bits */
    write_register(TTBR0_EL2, address_of(map));
    __asm__ volatile("dsb sy; tlbi alle2; dsb sy; isb" ::: "memory");

    const uint64_t fixed_bits = 0x30C50830, mmu = 1, data_cache = 1 << 2, instruction_cache = 1 << 12;
    write_register(SCTLR_EL2, fixed_bits | mmu | data_cache | instruction_cache);
    synchronize();
}

/* One block, so the guest reaches no device, and no byte of the hypervisor's. */
void map_guest(const void *memory) {
    static table gigabytes, blocks;
    gigabytes[GUEST_BASE / GIGABYTE] = address_of(blocks) | TABLE;
    blocks[0] = address_of(memory) | BLOCK | ACCESSED | SHARED | GUEST_READ_WRITE | GUEST_NORMAL;
    write_register(VTCR_EL2, 1u << 31 | TABLES_CACHED | 1u << 6 | 32); /* 32 bits, from level 1 on */
    write_register(VTTBR_EL2, address_of(gigabytes));
    __asm__ volatile("dsb sy; isb; tlbi vmalls12e1; dsb sy; isb" ::: "memory");
}

/* What was written as data can be fetched. */
void make_executable(const void *memory, size_t bytes) {
    uint64_t line = 4ull << (read_register(CTR_EL0) >> 16 & 15);
    for (uint64_t at = address_of(memory); at < address_of(memory) + bytes; at += line)
        __asm__ volatile("dc cvau, %0" ::"r"(at) : "memory");
    __asm__ volatile("dsb ish; ic ialluis; dsb ish; isb" ::: "memory");
}

void *memcpy(void *restrict to, const void *restrict from, size_t bytes) {
    for (size_t i = 0; i < bytes; i++)
        ((uint8_t *)to)[i] = ((const uint8_t *)from)[i];
    return to;
}

void *memset(void *memory, int byte, size_t bytes) {
    for (size_t i = 0; i < bytes; i++)
        ((uint8_t *)memory)[i] = (uint8_t)byte;
    return memory;
}

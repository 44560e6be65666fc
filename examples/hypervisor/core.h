/* The core's registers by name, and what else C has no words for. The guest uses it too. */
#ifndef CORE_H
#define CORE_H

#include <stdint.h>

#define read_register(name)                                                                                            \
    ({                                                                                                                 \
        uint64_t value_;                                                                                               \
        __asm__ volatile("mrs %0, " #name : "=r"(value_)::"memory");                                                   \
        value_;                                                                                                        \
    })

#define write_register(name, value) __asm__ volatile("msr " #name ", %x0" ::"rZ"((uint64_t)(value)) : "memory")

/* What was written to the core's registers holds from here on. */
static inline void synchronize(void) { __asm__ volatile("isb" ::: "memory"); }

#endif

/* What an MRS or MSR word holds, and the words of the five registers that an EL1 guest may reach. */
#ifndef WORDS_H
#define WORDS_H

#include <stdbool.h>
#include <stdint.h>

enum { XZR = 31 };

/* As register_of gives them. */
#define CNTVCT_EL0 0xD51BE040u
#define CNTV_TVAL_EL0 0xD51BE300u
#define CNTV_CTL_EL0 0xD51BE320u
#define CNTV_CVAL_EL0 0xD51BE340u
#define CNTKCTL_EL1 0xD518E100u

/* The word without its direction and its Rt. */
static inline uint32_t register_of(uint32_t word) { return word & 0xFFDFFFE0; }

static inline bool is_read(uint32_t word) { return word >> 21 & 1; }

static inline uint32_t rt_of(uint32_t word) { return word & 31; }

#endif

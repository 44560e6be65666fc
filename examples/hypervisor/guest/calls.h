/*
 * What the guest and the hypervisor have agreed on: where the guest's memory is, how the guest calls, what it notes,
 * and what it tries.
 */
#ifndef CALLS_H
#define CALLS_H

/* The guest's memory, as the guest sees it. There its image begins: a branch to its start, and the size of its text. */
#define GUEST_BASE 0x40000000
#define GUEST_BYTES 0x200000

/* HVC with one of these numbers. */
#define CALL_DONE 0
#define CALL_NOTE 1 /* what happened in x0, and two numbers in x1 and x2 */
#define CALL_PATCHED 2 /* a timer access stood here, which the core would not have trapped */

/* What the guest notes. */
#define NOTE_INTERRUPTED 0 /* its CNTVCT, its TVAL */
#define NOTE_LOST_REGISTERS 1 /* they do not hold what they held when it began to wait */
#define NOTE_READ_AT_EL0 2 /* what EL0 read from CNTVCT, and the syndrome of what ended its turn */
#define NOTE_TRIED 3 /* which of the attempts, and the syndrome of what came of it */
#define NOTE_FAULTED 4 /* an exception that it did not ask for: its address and syndrome */

/* How many leases it takes: more than one, as a second needs what the first has used. */
#define LEASES 2

#define NOTHING_CAME 0xFFFFFFFFFFFFFFFF /* for a syndrome: the attempt got through */

/* What it may not touch. The assembler has no name for some of them, or refuses to write them. */
/* clang-format off */
#define ATTEMPTS(attempt)                                                   \
    attempt("MRS CNTPCT_EL0", "mrs x0, cntpct_el0")                         \
    attempt("MRS CNTP_TVAL_EL0", "mrs x0, cntp_tval_el0")                   \
    attempt("MSR CNTP_TVAL_EL0", "msr cntp_tval_el0, xzr")                  \
    attempt("MRS CNTP_CTL_EL0", "mrs x0, cntp_ctl_el0")                     \
    attempt("MSR CNTP_CTL_EL0", "msr cntp_ctl_el0, xzr")                    \
    attempt("MSR CNTP_CVAL_EL0", "msr cntp_cval_el0, xzr")                  \
    attempt("MSR CNTVCT_EL0, which is read-only", "msr s3_3_c14_c0_2, xzr") \
    attempt("HVC for an access, where none stood", "hvc #2")                \
    attempt("MRS CNTVCTSS_EL0", "mrs x0, s3_3_c14_c0_6")                    \
    attempt("MRS CNTVOFF_EL2", "mrs x0, cntvoff_el2")                       \
    attempt("MSR CNTVOFF_EL2", "msr cntvoff_el2, xzr")                      \
    attempt("MSR CNTHCTL_EL2", "msr cnthctl_el2, xzr")                      \
    attempt("MSR CNTPOFF_EL2", "msr s3_4_c14_c0_6, xzr")                    \
    attempt("MRS CNTKCTL_EL12", "mrs x0, s3_5_c14_c1_0")                    \
    attempt("MSR CNTHP_CTL_EL2", "msr cnthp_ctl_el2, xzr")                  \
    attempt("MRS CNTHP_TVAL_EL2", "mrs x0, cnthp_tval_el2")                 \
    attempt("MRS CNTHVS_TVAL_EL2", "mrs x0, s3_4_c14_c4_0")
/* clang-format on */

#endif

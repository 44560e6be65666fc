/* The machine's way out: text by its PL011, and its end with a status by semihosting. */
#include "hypervisor.h"

#define UART_DATA (*(volatile uint32_t *)0x09000000)
#define UART_FLAGS (*(volatile uint32_t *)0x09000018)
#define UART_FULL (1u << 5)

static void say_character(char character) {
    while (UART_FLAGS & UART_FULL)
        ;
    UART_DATA = (uint8_t)character;
}

void say(const char *text) {
    for (; *text; text++)
        say_character(*text);
}

static void say_digits(uint64_t number, uint64_t base, int width) {
    char digits[21];
    char *first = digits + sizeof digits - 1;
    *first = 0;
    do {
        *--first = "0123456789ABCDEF"[number % base];
        number /= base;
    } while (number);
    for (long missing = width - (digits + sizeof digits - 1 - first); missing > 0; missing--)
        say(" ");
    say(first);
}

void say_number(uint64_t number) { say_digits(number, 10, 0); }

void say_column(uint64_t number, int width) { say_digits(number, 10, width); }

void say_hex(uint64_t number) {
    say("0x");
    say_digits(number, 16, 0);
}

void say_signed(int64_t number) {
    if (number < 0)
        say("-");
    say_number(number < 0 ? 0 - (uint64_t)number : (uint64_t)number);
}

_Noreturn void end_machine(enum status status) {
    const uint64_t application_exit = 0x20026;
    const uint64_t reason[] = {application_exit, status};
    register uint64_t operation __asm__("x0") = 0x18;
    register const uint64_t *block __asm__("x1") = reason;
    for (;;)
        __asm__ volatile("hlt #0xF000" : "+r"(operation) : "r"(block) : "memory");
}

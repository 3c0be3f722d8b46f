// What C and C++ programs for the simulator use: shared variables, fetch-and-phi on them, environment calls, and the console.
// parallel.h has barriers, locks and queues made of these.
#ifndef ULTRA_H
#define ULTRA_H

// A variable that all processors share, and that is zero at the start:
//
//     static SHARED(int) count;
//     static SHARED(int[8]) cells;
//     static SHARED(volatile struct node *) head;
//
// The variable itself is volatile, whatever its type: the compiler keeps each load and store of it, in the order in which they are
// written. A load or store of a word, halfword or byte is indivisible. What a shared pointer points to is volatile if the type says
// so, as above; `&cells[1]` is a `volatile int *`. Every variable that is not shared is each processor's own.
#define SHARED(...) __attribute__((section(".bss.shared"))) volatile __typeof__(__VA_ARGS__)

// The same for a variable that starts with another value, which takes room in the image: static SHARED_DATA(int) limit = 100;
#define SHARED_DATA(...) __attribute__((section(".shared"))) volatile __typeof__(__VA_ARGS__)

// ---- fetch-and-phi
//
// Reads a shared word and replaces it by a function of it and of the operand, in one indivisible step; returns the old value, in
// its own type. The word is an int, an unsigned, an enum or a pointer: anything of four bytes, which the compiler checks.

#define fetch_and_add(WORD, OPERAND) ULTRA_FETCH_AND(ultra_amoadd, WORD, OPERAND)
#define fetch_and_store(WORD, OPERAND) ULTRA_FETCH_AND(ultra_amoswap, WORD, OPERAND)
#define fetch_and_and(WORD, OPERAND) ULTRA_FETCH_AND(ultra_amoand, WORD, OPERAND)
#define fetch_and_or(WORD, OPERAND) ULTRA_FETCH_AND(ultra_amoor, WORD, OPERAND)
#define fetch_and_xor(WORD, OPERAND) ULTRA_FETCH_AND(ultra_amoxor, WORD, OPERAND)
#define fetch_and_min(WORD, OPERAND) ULTRA_FETCH_AND(ultra_amomin, WORD, OPERAND)
#define fetch_and_max(WORD, OPERAND) ULTRA_FETCH_AND(ultra_amomax, WORD, OPERAND)
#define fetch_and_min_unsigned(WORD, OPERAND) ULTRA_FETCH_AND(ultra_amominu, WORD, OPERAND)
#define fetch_and_max_unsigned(WORD, OPERAND) ULTRA_FETCH_AND(ultra_amomaxu, WORD, OPERAND)

#ifdef __cplusplus
template <class T> struct ultra_value_of { typedef T type; };
template <class T> struct ultra_value_of<volatile T> { typedef T type; };
#define ULTRA_VALUE_OF(WORD) ultra_value_of<__typeof__(*(WORD))>::type
#else
#define ULTRA_VALUE_OF(WORD) __typeof__(*(WORD))
#endif

#define ULTRA_FETCH_AND(AMO, WORD, OPERAND)                                                                      \
    ((void)sizeof(char[sizeof *(WORD) == 4 ? 1 : -1]),                                                           \
     (ULTRA_VALUE_OF(WORD))AMO((WORD), (unsigned)(__UINTPTR_TYPE__)(OPERAND)))

#define ULTRA_AMO(NAME, INSTRUCTION)                                                                             \
    static inline unsigned NAME(volatile void *word, unsigned operand) {                                         \
        unsigned before;                                                                                         \
        __asm__ volatile(INSTRUCTION " %0, %2, %1"                                                               \
                         : "=r"(before), "+A"(*(volatile unsigned *)word)                                        \
                         : "r"(operand)                                                                          \
                         : "memory");                                                                            \
        return before;                                                                                           \
    }

ULTRA_AMO(ultra_amoadd, "amoadd.w")
ULTRA_AMO(ultra_amoswap, "amoswap.w")
ULTRA_AMO(ultra_amoand, "amoand.w")
ULTRA_AMO(ultra_amoor, "amoor.w")
ULTRA_AMO(ultra_amoxor, "amoxor.w")
ULTRA_AMO(ultra_amomin, "amomin.w")
ULTRA_AMO(ultra_amomax, "amomax.w")
ULTRA_AMO(ultra_amominu, "amominu.w")
ULTRA_AMO(ultra_amomaxu, "amomaxu.w")

// ---- environment calls

// The number of the call is in a7, its argument and its result in a0.
static inline unsigned environment_call(unsigned number, unsigned argument) {
    register unsigned a0 __asm__("a0") = argument;
    register unsigned a7 __asm__("a7") = number;
    __asm__ volatile("ecall" : "+r"(a0) : "r"(a7) : "memory");
    return a0;
}

// Halts this processor with the low byte of `status`. `main` does so with what it returns.
static inline __attribute__((noreturn)) void halt(unsigned status) {
    environment_call(0, status);
    __builtin_unreachable();
}

// This processor's own number, from 0.
static inline unsigned processor_number(void) { return environment_call(2, 0); }

// How many processors there are.
static inline unsigned processor_count(void) { return environment_call(3, 0); }

// Stops this processor by fault 8, and with it the run: for what must not happen.
static inline __attribute__((noreturn)) void fail(void) {
    __asm__ volatile("ebreak");
    __builtin_unreachable();
}

// ---- the console: the report has each byte as two hex digits

// Prints the low byte.
static inline void put(unsigned byte) { environment_call(1, byte); }

static inline void put_text(const char *text) {
    for (; *text; text++) {
        put((unsigned char)*text);
    }
}

// Prints a number in decimal digits.
static inline void put_unsigned(unsigned number) {
    unsigned power = 1;
    while (number / power >= 10) {
        power *= 10;
    }
    for (; power > 0; power /= 10) {
        put('0' + number / power % 10);
    }
}

static inline void put_int(int number) {
    if (number < 0) {
        put('-');
    }
    put_unsigned(number < 0 ? 0U - (unsigned)number : (unsigned)number);
}

// Prints a number in eight hex digits.
static inline void put_hex(unsigned number) {
    for (int shift = 28; shift >= 0; shift -= 4) {
        put("0123456789abcdef"[number >> shift & 15]);
    }
}

#endif

// Refuses growths of a test. Its checked build takes memory by way of the functions below, which its sanitizer leaves to be defined
// by others. What the thread of a call asks for is counted apart from what the other threads do, so those change nothing in it.
#include <stdatomic.h>
#include <stddef.h>
#include <stdint.h>

void *___interceptor_malloc(size_t size);
void *___interceptor_realloc(void *old, size_t size);
size_t __sanitizer_get_current_allocated_bytes(void);

static _Thread_local uint64_t refused, asked;
static _Thread_local int is_spared;
static atomic_uint_least64_t first_refused, last_refused, asked_by_others;

static int is_refused_to_others(void) {
    if (is_spared) {
        return 0;
    }
    uint64_t number = ++asked_by_others;
    return first_refused <= number && number <= last_refused;
}

static int is_refused(void) {
    int is_others = is_refused_to_others();
    return ++asked == refused || is_others;
}

void *__interceptor_malloc(size_t size) { return is_refused() ? NULL : ___interceptor_malloc(size); }

void *__interceptor_realloc(void *old, size_t size) {
    return is_refused() ? NULL : ___interceptor_realloc(old, size);
}

// Refuses the growth of this number that the thread asks for from now on, counted from 1; by 0 none.
void refuse_growth(uint64_t number) {
    refused = number;
    asked = 0;
}

// Refuses nothing more, and returns how many growths the thread has asked for since.
uint64_t growths_asked(void) {
    refused = 0;
    return asked;
}

// Refuses the growths from the first number to the last that all threads but those that called this ask for from now on, counted
// from 1. Returns how many they have asked for since the last call.
uint64_t refuse_others(uint64_t first, uint64_t last) {
    is_spared = 1;
    last_refused = 0;
    uint64_t count = atomic_exchange(&asked_by_others, 0);
    first_refused = first;
    last_refused = last;
    return count;
}

// Returns how many bytes all threads hold.
uint64_t bytes_held(void) { return __sanitizer_get_current_allocated_bytes(); }

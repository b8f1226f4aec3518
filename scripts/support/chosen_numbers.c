// Numbers that an attacker may choose if a table hashes without a secret. They share few of its
// groups, so a look-up of one passes all that were added before it.
//
//     chosen_numbers FIRST COUNT STEP SHIFT BITS TAG
//
// prints COUNT numbers, one a line, ascending from FIRST by multiples of STEP. Of the 32 bits of
// their hashes BITS from SHIFT on are zero, and the highest eight are TAG, so that a look-up
// compares each of them.
//
// The hash is that of `FoldHasher` and `IndexMap`: a product of 128 bits, folded to 64 and to 32. A
// table takes the lowest bits for the group. So in a table of 2^G groups, where G is SHIFT + BITS,
// all of these numbers share one 2^BITS-th of the groups. `scripts/checks/growth_of_costs` checks
// that without a secret they cost more than other numbers.
#include <stdint.h>
#include <stdio.h>
#include <stdlib.h>

static uint32_t hash_of(uint64_t number) {
    const uint64_t state = 0x243f6a8885a308d3, multiplier = 0x9e3779b97f4a7c15 ^ 16;
    unsigned __int128 product = (unsigned __int128)(number ^ state) * multiplier;
    uint64_t folded = (uint64_t)product ^ (uint64_t)(product >> 64);
    return (uint32_t)(folded ^ folded >> 32);
}

int main(int count, char **words) {
    if (count != 7) return 2;
    uint64_t number = strtoull(words[1], NULL, 10), step = strtoull(words[3], NULL, 10);
    long left = atol(words[2]), shift = atol(words[4]), bits = atol(words[5]);
    uint32_t tag = (uint32_t)atol(words[6]);
    for (; left > 0; number += step) {
        uint32_t hash = hash_of(number);
        if ((hash >> shift & ((1u << bits) - 1)) == 0 && hash >> 24 == tag) {
            printf("%llu\n", (unsigned long long)number);
            left--;
        }
    }
    return 0;
}

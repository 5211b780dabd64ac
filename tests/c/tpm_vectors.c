/*
 * The run vectors of H_TPM_COMM on libpotterbeam_tpm.a: reads DIR/c000, DIR/c001, .. and prints what crates/tpm_vectors/stdout has to hold.
 *
 *   tpm_vectors DIR
 *
 * A case is 8-byte little-endian words: the memory's length and seed, the session; then for each call its five arguments, the response's
 * length and seed, and the platform's two flags. The words are put together byte by byte, so the program runs on a big-endian machine, too.
 */
#include <inttypes.h>
#include <stdio.h>
#include <string.h>

#include "potterbeam_tpm.h"

#define CASE_MAX 32768
#define MEMORY_MAX 65536
#define RESPONSE_MAX 65600
#define HEAD_WORDS 3
#define CALL_WORDS 9

static uint8_t input[CASE_MAX], memory[MEMORY_MAX], response[RESPONSE_MAX];

/* Word i of the case; bytes after its end are 0. */
static uint64_t word(size_t length, size_t i)
{
    uint64_t number = 0;
    for (size_t k = 8; k-- > 0;)
        number = number << 8 | (8 * i + k < length ? input[8 * i + k] : 0);
    return number;
}

/* The bytes of a seed. */
static void fill(uint8_t *bytes, size_t length, uint64_t seed)
{
    uint64_t x = seed % 65521;
    for (size_t i = 0; i < length; i++) {
        x = (171 * x + 11213) % 65521;
        bytes[i] = (uint8_t)(x % 256);
    }
}

/* The 64-bit FNV-1a hash. */
static uint64_t digest(const uint8_t *bytes, size_t length)
{
    uint64_t x = UINT64_C(0xCBF29CE484222325);
    for (size_t i = 0; i < length; i++)
        x = (x ^ bytes[i]) * UINT64_C(0x100000001B3);
    return x;
}

static size_t at_most(uint64_t number, size_t most)
{
    return number < most ? (size_t)number : most;
}

static void run_case(size_t length)
{
    const size_t memory_len = at_most(word(length, 0), MEMORY_MAX);
    uint64_t session = word(length, 2) != 0;
    fill(memory, memory_len, word(length, 1));
    for (size_t i = HEAD_WORDS; 8 * i < length; i += CALL_WORDS) {
        const uint64_t operation = word(length, i), in_buffer = word(length, i + 1), in_size = word(length, i + 2);
        const uint64_t out_buffer = word(length, i + 3), out_size = word(length, i + 4);
        const size_t response_len = at_most(word(length, i + 5), RESPONSE_MAX);
        const uint64_t forbidden = word(length, i + 7), fault = word(length, i + 8);
        uint64_t place[2], r4;
        fill(response, response_len, word(length, i + 6));
        pbeam_tpm_request(operation, in_buffer, in_size, out_buffer, out_size, memory, memory_len, forbidden, place);
        const uint64_t request = digest(memory + place[0], (size_t)place[1]);
        const int64_t r3 = pbeam_tpm_comm(&session, operation, in_buffer, in_size, out_buffer, out_size, memory, memory_len, response,
                                          response_len, forbidden, fault, &r4);
        printf("request %" PRIx64 " %" PRIx64 " %" PRIx64 " r3 -%" PRId64 " r4 %" PRIx64 " session %" PRIx64 " memory %" PRIx64 "\n",
               place[0], place[1], request, -r3, r4, session, digest(memory, memory_len));
    }
}

int main(int argc, char **argv)
{
    unsigned count = 0;
    if (argc != 2) {
        fprintf(stderr, "tpm_vectors DIR\n");
        return 2;
    }
    for (;; count++) {
        char name[4096];
        snprintf(name, sizeof name, "%s/c%03u", argv[1], count);
        FILE *file = fopen(name, "rb");
        if (file == NULL)
            break;
        const size_t length = fread(input, 1, sizeof input, file);
        const int failed = ferror(file);
        fclose(file);
        if (failed != 0)
            return 2;
        printf("case %03u\n", count);
        run_case(length);
    }
    return count == 0;
}

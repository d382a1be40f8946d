/* sha256.h: SHA-256, as FIPS 180-4 has it. */
#ifndef SHA256_H
#define SHA256_H

#include <stddef.h>
#include <stdint.h>

enum {
	SHA256_BLOCK = 64,
	SHA256_TEXT = 65, /* 64 digits, from 0 to f, and an end */
};

struct sha256 {
	uint32_t state[8];
	uint64_t size; /* bytes that were added */
	uint8_t block[SHA256_BLOCK];
};

void sha256_begin(struct sha256 *sum);
void sha256_add(struct sha256 *sum, const void *bytes, size_t size);

/* The sum of all that was added; nothing can be added after it. */
void sha256_end(struct sha256 *sum, char *text);

#endif

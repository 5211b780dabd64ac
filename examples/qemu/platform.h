/* The platform's own part of the commands: keys, tokens and signatures. A fill of bytes takes the place of cryptography. The caller holds
 * EL3's lock, and goes on holding it for the command. If `quiet`, no line is printed. */
#ifndef PLATFORM_H
#define PLATFORM_H

#include "potterbeam_types.h"

/* At the start: makes the realm key, and gives all that there is. */
void platform_start(pbeam_context_t *kit);

/* What the platform gives from now on: the lengths of the realm key and of a token, and MECIDWidthm1. Returns whether it can. */
bool platform_gives(pbeam_context_t *kit, uint64_t key_bytes, uint64_t token_bytes, uint64_t width);

/* Before a call for the token: which token it is lent, and whether the platform is busy. Returns whether it is a new one. */
bool platform_choose_token(pbeam_context_t *kit, const pbeam_call_t *call, bool quiet);

/* After the call that was lent a new token, if it is OK. */
void platform_token_is_lent(void);

/* When EL3 has time: the signer's step for every request that waits. The public key exists from the first time on. */
void platform_sign(pbeam_context_t *kit, bool quiet);

#endif

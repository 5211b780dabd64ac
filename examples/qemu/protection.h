/* Granule protection: what the hardware must do after an OK of delegate and undelegate. Without RME the tables are written, and nothing
 * reads them but protection_agrees. */
#ifndef PROTECTION_H
#define PROTECTION_H

#include <stdbool.h>
#include <stdint.h>

#include "board.h"

/* On each CPU, before a world is entered. The first CPU makes the tables, with the granules of the granule table Non-secure. */
void protection_on(uint64_t cpu);

/* A granule goes to the Realm world, or back to the Non-secure one. */
void protection_to_realm(uint64_t granule);
void protection_to_non_secure(uint64_t granule);

/* Whether the Realm granules of the granule table are those of the protection table. */
bool protection_agrees(const uint8_t table[GRANULES]);

#endif

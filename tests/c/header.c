/* The headers alone, as C11: they need no other header before them, and may come twice. */
#include "potterbeam_types.h"
#include "potterbeam_types.h"
#include "potterbeam.h"

#include "signatures.h"

extern const struct signatures every_function;
const struct signatures every_function = SIGNATURES;

/* Sizes that follow from others, checked at compile time. */
_Static_assert(PBEAM_CORE_BYTES_1 == PBEAM_CORE_DRAM, "edition 1 has no section");
_Static_assert(PBEAM_CORE_BYTES_2 == PBEAM_CORE_DRAM + PBEAM_SECTION_BYTES, "edition 2 ends behind dram");
_Static_assert(PBEAM_CORE_BYTES_3 == PBEAM_CORE_CONSOLE + PBEAM_SECTION_BYTES, "edition 3 ends behind console");
_Static_assert(PBEAM_CORE_BYTES_4 == PBEAM_CORE_COH + PBEAM_SECTION_BYTES, "edition 4 ends behind coh");
_Static_assert(PBEAM_BANK_BYTES == 8 * PBEAM_BANK_WORDS, "words of a bank");
_Static_assert(PBEAM_CONSOLE_BYTES == 8 * PBEAM_CONSOLE_WORDS, "words of a console");
_Static_assert(PBEAM_REQUEST_BYTES == PBEAM_REQUEST_HASH + PBEAM_HASH_BYTES, "a request ends with its hash");
_Static_assert(PBEAM_RESPONSE_BYTES_MOST == PBEAM_RESPONSE_SIGNATURE + PBEAM_SIGNATURE_BYTES_MOST, "a response ends with its signature");
_Static_assert(PBEAM_QUEUE_FIRST_RESPONSE == PBEAM_QUEUE_FIRST_REQUEST + PBEAM_REQUESTS_MOST * PBEAM_REQUEST_WORDS, "requests in the queue");
_Static_assert(PBEAM_QUEUE_WORDS == PBEAM_QUEUE_FIRST_RESPONSE + PBEAM_RESPONSES_MOST * PBEAM_RESPONSE_WORDS, "responses in the queue");
_Static_assert(PBEAM_VIEW_WORDS == PBEAM_VIEW_SECTIONS + PBEAM_SECTIONS * PBEAM_VIEW_SECTION_WORDS, "sections in a view");

/* Every id and code is also a number for the preprocessor. */
#if PBEAM_ID_FORWARD != 0xC400018F || PBEAM_X0_AGAIN != 0xFFFFFFFFFFFFFFFA || PBEAM_MANIFEST_RULES != -7
#error "a constant is no number for the preprocessor"
#endif

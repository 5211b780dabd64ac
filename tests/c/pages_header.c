/* The header alone, as C11: it needs no other header before it, and may be included twice, and together with those that it includes. */
#include "potterbeam_pages.h"
#include "potterbeam_pages.h"
#include "potterbeam.h"
#include "potterbeam_types.h"

#include "pages_signatures.h"

extern const struct pages_signatures both_functions;
const struct pages_signatures both_functions = PAGES_SIGNATURES;

_Static_assert(PBEAM_MEND_COH == PBEAM_MEND_DRAM + PBEAM_COH, "section k is word PBEAM_MEND_DRAM + k");
_Static_assert(PBEAM_MEND_WORDS == PBEAM_MEND_DRAM + PBEAM_SECTIONS, "sections in the report");

/* Every code is also a number for the preprocessor. */
#if PBEAM_PACK_W1_TARGET != 1 || PBEAM_MEND_DONE != 0
#error "a constant is no number for the preprocessor"
#endif

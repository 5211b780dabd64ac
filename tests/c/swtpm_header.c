/* potterbeam_swtpm.h alone, as C11: it needs no other header before it, and may come twice. */
#include "potterbeam_swtpm.h"
#include "potterbeam_swtpm.h"

#include "swtpm_signatures.h"

extern const struct swtpm_signatures every_function;
const struct swtpm_signatures every_function = SWTPM_SIGNATURES;

#if PBEAM_SWTPM_OK != 0 || PBEAM_SWTPM_NO_DATA != 10
#error "a constant is no number for the preprocessor"
#endif

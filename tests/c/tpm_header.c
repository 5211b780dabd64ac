/* The header alone, as C11: it needs no other header before it, and may come twice. */
#include "potterbeam_tpm.h"
#include "potterbeam_tpm.h"

#include "tpm_signatures.h"

extern const struct tpm_signatures both_functions;
const struct tpm_signatures both_functions = TPM_SIGNATURES;

/* Every code is also a number for the preprocessor. */
#if PBEAM_TPM_H_P5 != -58 || PBEAM_TPM_EXECUTE != 1
#error "a constant is no number for the preprocessor"
#endif

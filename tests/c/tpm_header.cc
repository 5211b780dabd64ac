// The header alone, as C++11 and later: it needs no other header before it, may come twice, and gives its functions C linkage
// (tests/c/run_tpm looks at the names in the object file).
#include "potterbeam_tpm.h"
#include "potterbeam_tpm.h"

#include "tpm_signatures.h"

extern const tpm_signatures both_functions;
const tpm_signatures both_functions = TPM_SIGNATURES;

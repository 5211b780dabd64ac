// potterbeam_swtpm.h alone, as C++11 and later: it needs no other header before it, may come twice, and gives its functions C linkage
// (tests/c/run looks at the names in the object file).
#include "potterbeam_swtpm.h"
#include "potterbeam_swtpm.h"

#include "swtpm_signatures.h"

extern const swtpm_signatures every_function;
const swtpm_signatures every_function = SWTPM_SIGNATURES;

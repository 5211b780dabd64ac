// The headers alone, as C++11 and later: they need no other header before them, may come twice, and the functions of potterbeam.h have C
// linkage (tests/c/run looks at the names in the object file).
#include "potterbeam_types.h"
#include "potterbeam_types.h"
#include "potterbeam.h"

#include "signatures.h"

extern const signatures every_function;
const signatures every_function = SIGNATURES;

static_assert(PBEAM_X0_AGAIN == static_cast<uint64_t>(static_cast<int64_t>(PBEAM_AGAIN)), "a code as x0 holds it");

// The header alone, as C++11 and later: it needs no other header before it, may come twice, and beside those that it includes, and gives
// its functions C linkage (tests/c/run_pages looks at the names in the object file).
#include "potterbeam_pages.h"
#include "potterbeam_pages.h"
#include "potterbeam.h"
#include "potterbeam_types.h"

#include "pages_signatures.h"

extern const pages_signatures both_functions;
const pages_signatures both_functions = PAGES_SIGNATURES;

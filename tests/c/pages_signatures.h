/* Both functions of include/potterbeam_pages.h with their types, written out once more: a changed type or a lost declaration does not
 * compile. Included by pages_header.c and pages_header.cc. */
#ifndef PAGES_SIGNATURES_H
#define PAGES_SIGNATURES_H

struct pages_signatures {
    int32_t (*pack)(const uint8_t *, size_t, uint64_t, uint8_t *, size_t);
    int32_t (*mend)(uint8_t *, size_t, uint64_t, uint64_t *);
};

#define PAGES_SIGNATURES       \
    {                          \
        pbeam_pack, pbeam_mend \
    }

#endif

/* Both functions of include/potterbeam_tpm.h with their types, written out once more: a changed type or a lost declaration does not
 * compile. Included by tpm_header.c and tpm_header.cc. */
#ifndef TPM_SIGNATURES_H
#define TPM_SIGNATURES_H

struct tpm_signatures {
    int64_t (*comm)(uint64_t *, uint64_t, uint64_t, uint64_t, uint64_t, uint64_t, uint8_t *, size_t, const uint8_t *, size_t, uint64_t,
                    uint64_t, uint64_t *);
    void (*request)(uint64_t, uint64_t, uint64_t, uint64_t, uint64_t, const uint8_t *, size_t, uint64_t, uint64_t *);
    const char *(*name)(int64_t);
};

#define TPM_SIGNATURES                                      \
    {                                                       \
        pbeam_tpm_comm, pbeam_tpm_request, pbeam_tpm_name   \
    }

#endif

/* Every function of potterbeam_swtpm.h with its type, written out once more. Included by swtpm_header.c and swtpm_header.cc. */
#ifndef SWTPM_SIGNATURES_H
#define SWTPM_SIGNATURES_H

struct swtpm_signatures {
    uint32_t (*read_request)(const uint8_t *, size_t, uint32_t, uint32_t *);
    uint32_t (*write_request)(uint8_t *, size_t, uint32_t, uint32_t, uint32_t, uint32_t, size_t *);
    uint32_t (*read_response)(const uint8_t *, size_t, uint32_t, uint32_t *);
    uint32_t (*write_response)(uint8_t *, size_t, uint32_t, uint32_t, uint32_t, uint32_t, const uint8_t *, size_t, size_t *);
    uint32_t (*collect)(uint32_t *, const uint8_t *, size_t, uint32_t, uint8_t *, size_t);
    bool (*complete)(const uint32_t *);
    uint32_t (*held)(const uint32_t *);
};

#define SWTPM_SIGNATURES                                                                                                             \
    {                                                                                                                                \
        pbeam_swtpm_read_request, pbeam_swtpm_write_request, pbeam_swtpm_read_response, pbeam_swtpm_write_response,                  \
            pbeam_swtpm_collect, pbeam_swtpm_complete, pbeam_swtpm_held                                                              \
    }

#endif

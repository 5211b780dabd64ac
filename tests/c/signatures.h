/* Every function of the header with its type, written out once more: a changed type or a lost declaration does not compile.
 * Included by header.c and header.cc. */
#ifndef SIGNATURES_H
#define SIGNATURES_H

typedef const uint8_t *bytes;
typedef const uint64_t *words;

struct signatures {
    int32_t (*read)(bytes, size_t, uint64_t, uint64_t, uint64_t *);
    void (*array)(bytes, size_t, uint64_t, uint64_t, size_t, uint64_t *);
    void (*array_of)(bytes, size_t, words, size_t, uint64_t *);
    size_t (*count)(bytes, size_t, words, size_t);
    uint64_t (*word)(bytes, size_t, words, size_t, size_t, size_t);
    size_t (*console_named)(bytes, size_t, words, bytes);
    size_t (*field_count)(bytes, size_t, words);
    void (*field)(bytes, size_t, words, size_t, uint64_t *);
    void (*field_of_tag)(bytes, size_t, words, uint8_t, uint64_t *);
    size_t (*field_start)(bytes, size_t, words);
    size_t (*field_next)(bytes, size_t, size_t, uint64_t *);
    uint64_t (*kept_for)(bytes, size_t, words);
    size_t (*listing)(bytes, size_t, uint64_t, uint64_t, uint8_t *, size_t);
    uint32_t (*write)(uint64_t, uint64_t, words, size_t, words, size_t, words, size_t, words, size_t, bytes, size_t, uint8_t *,
                      size_t);
    int32_t (*cold_boot)(uint64_t *, uint64_t, uint64_t, uint64_t, uint64_t, uint64_t, uint64_t, bytes, size_t);
    int32_t (*warm_boot)(uint64_t *, uint64_t, uint64_t, uint64_t, uint64_t);
    void (*close)(uint64_t *);
    bool (*version_accepted)(uint64_t);
    uint64_t (*agreed_minor)(uint64_t);
    bool (*is_later)(uint64_t, uint64_t);
    uint64_t (*set_up_granules)(uint64_t *, bytes, size_t, uint64_t);
    void (*delegate)(words, words, uint8_t *, size_t, uint64_t *, size_t, uint64_t, uint64_t *);
    void (*undelegate)(words, words, uint8_t *, size_t, uint64_t *, size_t, uint64_t, uint64_t *);
    void (*delegate_list)(words, words, uint8_t *, size_t, uint64_t *, size_t, words, size_t, uint64_t *);
    void (*undelegate_list)(words, words, uint8_t *, size_t, uint64_t *, size_t, words, size_t, uint64_t *);
    uint64_t (*realm_count)(words, words, size_t, uint64_t *);
    uint64_t (*realm_next)(words, words, size_t, uint64_t, uint64_t *);
    uint64_t (*realm_agrees)(words, bytes, size_t, words, size_t);
    uint64_t (*realm_build)(words, bytes, size_t, uint64_t *, size_t);
    void (*realm_key)(words, uint8_t *, size_t, bytes, size_t, uint64_t, uint64_t, uint64_t, uint64_t *);
    void (*platform_token)(words, uint64_t *, uint8_t *, size_t, bytes, size_t, uint64_t, uint64_t, uint64_t, uint64_t, uint64_t *);
    uint64_t (*challenge)(words, bytes, size_t, uint64_t, uint64_t, uint64_t, uint64_t *);
    void (*features)(words, uint64_t, uint64_t *);
    void (*token_signing)(words, uint64_t *, uint8_t *, size_t, bytes, size_t, uint64_t, uint64_t, uint64_t, uint64_t, uint64_t *);
    void (*key_update)(words, uint64_t, uint64_t, uint64_t *, uint64_t *);
    uint64_t (*forward)(words, uint64_t);
    void (*sign)(uint64_t *, bytes, size_t, uint64_t *);
    size_t (*oldest)(words, uint64_t *);
    size_t (*responses)(words);
    void (*call)(words, uint64_t *, uint64_t *, uint8_t *, size_t, words, uint8_t *, size_t, uint64_t *, size_t, bytes, size_t, bytes,
                 size_t, uint64_t, bytes, size_t, uint64_t, words, uint64_t *, uint64_t *);
};

#define SIGNATURES                                                                                                             \
    {                                                                                                                          \
        pbeam_read, pbeam_array, pbeam_array_of, pbeam_count, pbeam_word, pbeam_console_named, pbeam_field_count, pbeam_field, \
            pbeam_field_of_tag, pbeam_field_start, pbeam_field_next, pbeam_kept_for, pbeam_listing, pbeam_write,               \
            pbeam_cold_boot, pbeam_warm_boot, pbeam_close, pbeam_version_accepted, pbeam_agreed_minor, pbeam_is_later,         \
            pbeam_set_up_granules, pbeam_delegate, pbeam_undelegate, pbeam_delegate_list, pbeam_undelegate_list,               \
            pbeam_realm_count, pbeam_realm_next, pbeam_realm_agrees, pbeam_realm_build, pbeam_realm_key, pbeam_platform_token, \
            pbeam_challenge, pbeam_features, pbeam_token_signing, pbeam_key_update, pbeam_forward, pbeam_sign, pbeam_oldest,   \
            pbeam_responses, pbeam_call                                                                                        \
    }

#endif

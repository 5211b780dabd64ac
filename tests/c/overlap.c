/* Memory that overlaps: each function that the headers forbid to lend one memory twice (PBEAM_RESTRICT, PBEAM_RESTRICT_WORDS), called with the
 * memory of one argument as another that it writes. tests/c/run_mistakes compiles this file: gcc must warn on each line with AGAIN or WORDS_AGAIN,
 * g++ on each with AGAIN (C++ has no restrict for an array), and neither of them with -DAPART, which passes other memory there. It is never run. */
#include "potterbeam_pages.h"
#include "potterbeam_swtpm.h"
#include "potterbeam_tpm.h"
#include "potterbeam_types.h"

#ifdef APART
#define AGAIN(memory) other_##memory
#define WORDS_AGAIN(memory) other_##memory
#else
#define AGAIN(memory) memory
#define WORDS_AGAIN(memory) memory
#endif

/* Lent memory, from where the compiler does not see it. */
extern uint8_t *const bytes, *const other_bytes, *const page;
extern uint64_t *const words, *const other_words, *const state, *const table_words, *const out, *const work;
extern uint32_t *const parts;
extern size_t *const length;
extern pbeam_page_t *const sheet, *const other_sheet;

#ifdef __cplusplus
extern "C"
#endif
uint64_t overlap(void);

uint64_t overlap(void)
{
    uint64_t used = 0;

    /* potterbeam.h */
    used += pbeam_read(bytes, 4096, 4096, 4, (uint64_t *)(void *)WORDS_AGAIN(bytes)) == 0;
    pbeam_array(bytes, 4096, 4096, 4, 0, (uint64_t *)(void *)WORDS_AGAIN(bytes));
    pbeam_array_of(page, 4096, words, 0, WORDS_AGAIN(words));
    pbeam_field(page, 4096, words, 0, WORDS_AGAIN(words));
    pbeam_field_of_tag(page, 4096, words, 1, WORDS_AGAIN(words));
    used += pbeam_field_next(bytes, 4096, 0, (uint64_t *)(void *)WORDS_AGAIN(bytes));
    used += pbeam_listing(bytes, 4096, 4096, 4, AGAIN(bytes), 4096);
    used += pbeam_write(4096, 4, words, 2, NULL, 0, NULL, 0, NULL, 0, bytes, 4, AGAIN(bytes), 4096);
    used += pbeam_cold_boot((uint64_t *)(void *)WORDS_AGAIN(bytes), 0, 5, 1, 4096, 8, 0, bytes, 4096) == 0;
    used += pbeam_set_up_granules((uint64_t *)(void *)WORDS_AGAIN(bytes), bytes, 16, 1);
    pbeam_delegate(state, words, bytes, 64, AGAIN(words), 1, 4096, out);
    pbeam_delegate(state, words, bytes, 64, table_words, 1, 4096, WORDS_AGAIN(words));
    pbeam_undelegate(state, words, bytes, 64, AGAIN(words), 1, 4096, out);
    pbeam_undelegate(state, words, bytes, 64, table_words, 1, 4096, WORDS_AGAIN(words));
    pbeam_delegate_list(state, table_words, bytes, 64, AGAIN(words), 1, words, 1, out);
    pbeam_delegate_list(state, table_words, bytes, 64, out, 1, words, 1, WORDS_AGAIN(words));
    pbeam_undelegate_list(state, table_words, bytes, 64, AGAIN(words), 1, words, 1, out);
    used += pbeam_realm_count(state, words, 1, WORDS_AGAIN(words));
    used += pbeam_realm_next(state, words, 1, 0, WORDS_AGAIN(words));
    used += pbeam_realm_build(words, bytes, 64, AGAIN(words), 1);
    pbeam_realm_key(state, AGAIN(bytes), 4096, bytes, 96, 4096, 96, 0, out);
    pbeam_realm_key(words, page, 4096, bytes, 96, 4096, 96, 0, WORDS_AGAIN(words));
    pbeam_platform_token(state, words, AGAIN(bytes), 4096, bytes, 100, 0, 4096, 64, 48, out);
    pbeam_platform_token(words, WORDS_AGAIN(words), page, 4096, bytes, 100, 0, 4096, 64, 48, out);
    used += pbeam_challenge(words, page, 4096, 4096, 64, 48, WORDS_AGAIN(words));
    pbeam_features(words, 0, WORDS_AGAIN(words));
    pbeam_token_signing(state, words, AGAIN(bytes), 4096, bytes, 96, 3, 4096, 96, 0, out);
    pbeam_token_signing(state, words, page, 4096, bytes, 96, 3, 4096, 96, 0, WORDS_AGAIN(words));
    pbeam_key_update(state, 15, 1, words, WORDS_AGAIN(words));
    pbeam_sign(words, bytes, 96, WORDS_AGAIN(words));
    used += pbeam_oldest(words, WORDS_AGAIN(words));
    pbeam_call(state, words, out, AGAIN(bytes), 4096, state, NULL, 0, NULL, 0, bytes, 96, NULL, 0, 0, NULL, 0, 15, state, table_words, work);
    pbeam_call(state, words, out, page, 4096, state, bytes, 1, NULL, 0, NULL, 0, NULL, 0, 0, NULL, 0, 15, state, WORDS_AGAIN(words), work);

    /* potterbeam_types.h */
    used += pbeam_fields_add(bytes, 64, (size_t *)(void *)AGAIN(bytes), PBEAM_TAG_FREE, pbeam_bytes(NULL, 0));
    used += pbeam_manifest_listing(sheet, 4096, 4, (char *)AGAIN(sheet), 4096);
    pbeam_put_request(AGAIN(bytes), 1, 2, bytes);
    used += pbeam_get_response(bytes, 122, (pbeam_response_t *)(void *)AGAIN(bytes));

    /* potterbeam_pages.h */
    used += pbeam_pack(bytes, 4096, 4096, AGAIN(bytes), 4096) == 0;
    used += pbeam_mend(bytes, 4096, 4096, (uint64_t *)(void *)AGAIN(bytes)) == 0;
    used += pbeam_manifest_pack(sheet, 4096, AGAIN(sheet)) == PBEAM_PACKED;
    used += pbeam_manifest_mend(sheet, 4096, (pbeam_changes_t *)(void *)AGAIN(sheet)) == 0;

    /* potterbeam_tpm.h */
    used += pbeam_tpm_comm(state, 1, 0, 0, 0, 4096, AGAIN(bytes), 4096, bytes, 16, 0, 0, out) == 0;
    used += pbeam_tpm_comm(words, 1, 0, 0, 0, 4096, page, 4096, bytes, 16, 0, 0, AGAIN(words)) == 0;

    pbeam_tpm_request(1, 0, 16, 0, 4096, bytes, 4096, 0, (uint64_t *)(void *)WORDS_AGAIN(bytes));

    /* potterbeam_swtpm.h */
    used += pbeam_swtpm_read_request(bytes, 16, 12, (uint32_t *)(void *)WORDS_AGAIN(bytes));
    used += pbeam_swtpm_write_request(bytes, 16, 12, 0, 1, 0, (size_t *)(void *)AGAIN(bytes));
    used += pbeam_swtpm_read_response(bytes, 16, 16, (uint32_t *)(void *)WORDS_AGAIN(bytes));
    used += pbeam_swtpm_write_response(AGAIN(bytes), 32, 16, 0, 0, 0, bytes, 16, length);
    used += pbeam_swtpm_collect(parts, bytes, 32, 16, AGAIN(bytes), 32);
    return used;
}

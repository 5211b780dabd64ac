/* Results that must be used: each function that a header marks with PBEAM_MUST_CHECK, called once with its result ignored. tests/c/run_mistakes
 * compiles this file as C and as C++: the compiler must warn on each line with IGNORE, and on none with -DUSED. It is never run. */
#include "potterbeam_pages.h"
#include "potterbeam_swtpm.h"
#include "potterbeam_tpm.h"
#include "potterbeam_types.h"

#ifdef USED
#define IGNORE(type, result)       \
    do {                           \
        const type used = (result); \
        (void)used;                \
    } while (0)
#else
#define IGNORE(type, result) result
#endif

#ifdef __cplusplus
extern "C"
#endif
void ignored(pbeam_context_t *context, pbeam_page_t *page, pbeam_page_t *target, uint8_t *bytes, uint64_t *words, uint32_t *parts, size_t *length);

void ignored(pbeam_context_t *context, pbeam_page_t *page, pbeam_page_t *target, uint8_t *bytes, uint64_t *words, uint32_t *parts, size_t *length)
{
    static const pbeam_lists_t lists = {NULL, 0, NULL, 0, NULL, 0, NULL, 0, {NULL, 0}};
    static const pbeam_cold_t x = {0, 5, 1, 4096};
    pbeam_view_t view;
    pbeam_console_t console;
    pbeam_request_t request;
    pbeam_response_t response;
    pbeam_changes_t changes;
    uint64_t number;

    /* potterbeam.h */
    IGNORE(int32_t, pbeam_read(bytes, 4096, 4096, 4, words));
    IGNORE(size_t, pbeam_field_next(bytes, 4096, 0, words));
    IGNORE(size_t, pbeam_listing(page->bytes, 4096, 4096, 4, bytes, 4096));
    IGNORE(uint32_t, pbeam_write(4096, 4, NULL, 0, NULL, 0, NULL, 0, NULL, 0, NULL, 0, bytes, 4096));
    IGNORE(int32_t, pbeam_cold_boot(words, 0, 5, 1, 4096, 8, 0, bytes, 4096));
    IGNORE(int32_t, pbeam_warm_boot(words, 0, 0, 0, 0));
    IGNORE(uint64_t, pbeam_set_up_granules(words, bytes, 16, 1));
    IGNORE(uint64_t, pbeam_realm_count(words, NULL, 0, &number));
    IGNORE(uint64_t, pbeam_realm_next(words, NULL, 0, 0, &number));
    IGNORE(uint64_t, pbeam_realm_build(words, bytes, 1, &number, 1));
    IGNORE(uint64_t, pbeam_forward(words, 0));
    IGNORE(size_t, pbeam_oldest(words, request.words));

    /* potterbeam_types.h */
    IGNORE(bool, pbeam_console_set_name(&console, "pl011"));
    IGNORE(bool, pbeam_fields_add(bytes, 4096, length, PBEAM_TAG_FREE, pbeam_bytes(NULL, 0)));
    IGNORE(uint32_t, pbeam_manifest_write(4096, 4, &lists, page));
    IGNORE(int32_t, pbeam_manifest_read(page, 4096, 4, &view));
    IGNORE(pbeam_field_t, pbeam_view_field_next(page, length));
    IGNORE(bool, pbeam_view_console_named(page, &view, "pl011", &console));
    IGNORE(bool, pbeam_version(0, 5, &number));
    IGNORE(int32_t, pbeam_record_cold_boot(&context->record, &x, 8, 0, page));
    IGNORE(int32_t, pbeam_record_warm_boot(&context->record, 0));
    IGNORE(uint64_t, pbeam_context_set_up_granules(context, page, &view));
    IGNORE(uint64_t, pbeam_context_build_words(context));
    IGNORE(uint64_t, pbeam_context_realm_count(context, &number));
    IGNORE(uint64_t, pbeam_context_realm_next(context, 0, &number));
    IGNORE(size_t, pbeam_queue_oldest(&context->queue, &request));
    IGNORE(bool, pbeam_get_response(bytes, 122, &response));

    /* potterbeam_pages.h */
    IGNORE(int32_t, pbeam_pack(page->bytes, 4096, 4096, bytes, 4096));
    IGNORE(int32_t, pbeam_mend(bytes, 4096, 4096, words));
    IGNORE(pbeam_packing_t, pbeam_manifest_pack(page, 4096, target));
    IGNORE(int32_t, pbeam_manifest_mend(page, 4096, &changes));

    /* potterbeam_tpm.h */
    IGNORE(int64_t, pbeam_tpm_comm(words, 1, 0, 0, 0, 4096, bytes, 4096, NULL, 0, 0, 0, &number));

    /* potterbeam_swtpm.h */
    IGNORE(uint32_t, pbeam_swtpm_read_request(bytes, 16, 12, parts));
    IGNORE(uint32_t, pbeam_swtpm_write_request(bytes, 16, 12, 0, 1, 0, length));
    IGNORE(uint32_t, pbeam_swtpm_read_response(bytes, 16, 4096, parts));
    IGNORE(uint32_t, pbeam_swtpm_write_response(bytes, 16, 4096, 0, 0, 0, NULL, 0, length));
    IGNORE(uint32_t, pbeam_swtpm_collect(parts, bytes, 16, 4096, page->bytes, 4096));
}

/* Mistakes that the headers rule out. tests/c/run_mistakes compiles this file, as C and as C++, once without a mistake and once with each: gcc and
 * g++ must refuse it with the words in the comment on the same line, those for C before the bar and those for C++ after it. */
#include "potterbeam_pages.h"
#include "potterbeam_swtpm.h"
#include "potterbeam_tpm.h"
#include "potterbeam_types.h"

#ifndef MISTAKE
#define MISTAKE 0
#endif

#ifdef __cplusplus
extern "C"
#endif
uint64_t mistakes(pbeam_context_t *context, pbeam_page_t *page, const pbeam_bank_t *banks, uint64_t *word);

uint64_t mistakes(pbeam_context_t *context, pbeam_page_t *page, const pbeam_bank_t *banks, uint64_t *word)
{
    pbeam_request_t request;
    pbeam_registers_t out = {{0, 0, 0}};
    pbeam_work_t work;
    pbeam_view_t view;
    pbeam_lists_t lists = {banks, 1, NULL, 0, NULL, 0, NULL, 0, {NULL, 0}};
    const pbeam_call_t call = pbeam_call_features();
    uint64_t result = 0;
    pbeam_context_call(context, &call, &out, &work);
#if MISTAKE == 1 /* incompatible pointer type | cannot convert */
    pbeam_session_reset(&context->queue);
#endif
#if MISTAKE == 2 /* incompatible pointer type | cannot convert */
    pbeam_context_call(context, &call, &work, &out);
#endif
#if MISTAKE == 3 /* incompatible pointer type | cannot convert */
    lists.ncoh = banks;
#endif
#if MISTAKE == 4 /* incompatible pointer type | cannot convert */
    lists.dram = &banks->base;
#endif
#if MISTAKE == 5 /* incompatible type for argument 2 | could not convert */
    pbeam_queue_sign(&context->queue, page->bytes, &out);
#endif
#if MISTAKE == 6 /* [-Werror=nonnull] | [-Werror=nonnull] */
    result += pbeam_queue_oldest(&context->queue, NULL);
#endif
#if MISTAKE == 7 /* [-Werror=nonnull] | [-Werror=nonnull] */
    result += pbeam_read(page->bytes, sizeof page->bytes, 4096, 4, NULL) != 0;
#endif
#if MISTAKE == 8 /* incompatible pointer type | cannot convert */
    result += pbeam_manifest_read(page->bytes, 4096, 4, &view) != 0;
#endif
#if MISTAKE == 9 /* incompatible pointer type | cannot convert */
    result += pbeam_record_warm_boot(&context->session, 0) != 0;
#endif
#if MISTAKE == 10 /* incompatible pointer type | cannot convert */
    result += pbeam_context_set_up_granules(context, page, &request);
#endif
#if MISTAKE == 11 /* [-Werror=nonnull] | [-Werror=nonnull] */
    result += pbeam_mend(page->bytes, sizeof page->bytes, 4096, NULL) != 0;
#endif
#if MISTAKE == 12 /* [-Werror=nonnull] | [-Werror=nonnull] */
    result += pbeam_tpm_comm(word, 1, 0, 0, 0, 4096, page->bytes, sizeof page->bytes, NULL, 0, 0, 0, NULL) != 0;
#endif
#if MISTAKE == 13 /* [-Werror=nonnull] | [-Werror=nonnull] */
    result += pbeam_swtpm_write_request(page->bytes, sizeof page->bytes, 12, 0, 1, 0, NULL);
#endif
#if MISTAKE == 14 /* incompatible pointer type | cannot convert */
    result += pbeam_read(page, sizeof *page, 4096, 4, view.words) != 0;
#endif
#if MISTAKE == 15 /* incompatible pointer type | cannot convert */
    result += pbeam_manifest_mend(page, 4096, &context->record) != 0;
#endif
    result += pbeam_manifest_read(page, 4096, 4, &view) != 0;
    return result + pbeam_queue_oldest(&context->queue, &request) + lists.dram_count + *word + view.words[0];
}

/* NULL where a header forbids it: each argument that a PBEAM_NONNULL(..) names, tried once. tests/c/run_parameters compiles this file as C
 * and as C++: the compiler must warn on each line with MISSING, of that argument alone, and on no line with -DGIVEN, which passes memory
 * there. A slice may be NULL if its length is 0, so each slice is. The file is never run. */
#include "potterbeam_pages.h"
#include "potterbeam_swtpm.h"
#include "potterbeam_tpm.h"
#include "potterbeam_types.h"

#ifdef GIVEN
#define MISSING(memory) memory
#else
#define MISSING(memory) NULL
#endif

#pragma GCC diagnostic ignored "-Wunused-result" /* tests/c/ignored.c tries that */

#ifdef __cplusplus
extern "C" {
#endif
void words_missing(uint64_t *state, uint64_t *granules, uint64_t *session, uint64_t *queue, uint64_t *view, uint64_t *place,
                   uint64_t *field, uint64_t *call, uint64_t *out, uint64_t *work, uint64_t *request, uint64_t *changed, uint64_t *word,
                   uint64_t *number, const uint8_t *bytes, uint32_t *parts, size_t *length);
void structs_missing(pbeam_context_t *context, pbeam_page_t *page, pbeam_page_t *target, pbeam_view_t *view, pbeam_place_t *place,
                     pbeam_field_t *field, pbeam_record_t *record, pbeam_session_t *session, pbeam_queue_t *queue, pbeam_request_t *request,
                     pbeam_call_t *call, pbeam_registers_t *out, pbeam_work_t *work, pbeam_response_t *response, pbeam_changes_t *changes,
                     pbeam_console_t *console, pbeam_lists_t *lists, pbeam_cold_t *cold, uint64_t *number, uint8_t *bytes, uint8_t *hash,
                     char *text, size_t *length);
#ifdef __cplusplus
}
#endif

/* Images as words. */
void words_missing(uint64_t *state, uint64_t *granules, uint64_t *session, uint64_t *queue, uint64_t *view, uint64_t *place,
                   uint64_t *field, uint64_t *call, uint64_t *out, uint64_t *work, uint64_t *request, uint64_t *changed, uint64_t *word,
                   uint64_t *number, const uint8_t *bytes, uint32_t *parts, size_t *length)
{
    /* potterbeam.h */
    pbeam_read(NULL, 0, 4096, 4, MISSING(view));
    pbeam_array(NULL, 0, 4096, 4, 0, MISSING(place));
    pbeam_array_of(NULL, 0, MISSING(view), 0, place);
    pbeam_array_of(NULL, 0, view, 0, MISSING(place));
    pbeam_count(NULL, 0, MISSING(view), 0);
    pbeam_word(NULL, 0, MISSING(view), 0, 0, 0);
    pbeam_console_named(NULL, 0, MISSING(view), bytes);
    pbeam_console_named(NULL, 0, view, MISSING(bytes));
    pbeam_field_count(NULL, 0, MISSING(view));
    pbeam_field(NULL, 0, MISSING(view), 0, field);
    pbeam_field(NULL, 0, view, 0, MISSING(field));
    pbeam_field_of_tag(NULL, 0, MISSING(view), 1, field);
    pbeam_field_of_tag(NULL, 0, view, 1, MISSING(field));
    pbeam_field_start(NULL, 0, MISSING(view));
    pbeam_field_next(NULL, 0, 0, MISSING(field));
    pbeam_kept_for(NULL, 0, MISSING(view));
    pbeam_cold_boot(MISSING(state), 0, 0, 0, 0, 0, 0, NULL, 0);
    pbeam_warm_boot(MISSING(state), 0, 0, 0, 0);
    pbeam_close(MISSING(state));
    pbeam_set_up_granules(MISSING(granules), NULL, 0, 0);
    pbeam_delegate(MISSING(state), granules, NULL, 0, NULL, 0, 0, out);
    pbeam_delegate(state, MISSING(granules), NULL, 0, NULL, 0, 0, out);
    pbeam_delegate(state, granules, NULL, 0, NULL, 0, 0, MISSING(out));
    pbeam_undelegate(MISSING(state), granules, NULL, 0, NULL, 0, 0, out);
    pbeam_undelegate(state, MISSING(granules), NULL, 0, NULL, 0, 0, out);
    pbeam_undelegate(state, granules, NULL, 0, NULL, 0, 0, MISSING(out));
    pbeam_delegate_list(MISSING(state), granules, NULL, 0, NULL, 0, NULL, 0, out);
    pbeam_delegate_list(state, MISSING(granules), NULL, 0, NULL, 0, NULL, 0, out);
    pbeam_delegate_list(state, granules, NULL, 0, NULL, 0, NULL, 0, MISSING(out));
    pbeam_undelegate_list(MISSING(state), granules, NULL, 0, NULL, 0, NULL, 0, out);
    pbeam_undelegate_list(state, MISSING(granules), NULL, 0, NULL, 0, NULL, 0, out);
    pbeam_undelegate_list(state, granules, NULL, 0, NULL, 0, NULL, 0, MISSING(out));
    pbeam_realm_count(MISSING(granules), NULL, 0, number);
    pbeam_realm_count(granules, NULL, 0, MISSING(number));
    pbeam_realm_next(MISSING(granules), NULL, 0, 0, number);
    pbeam_realm_next(granules, NULL, 0, 0, MISSING(number));
    pbeam_realm_agrees(MISSING(granules), NULL, 0, NULL, 0);
    pbeam_realm_build(MISSING(granules), NULL, 0, NULL, 0);
    pbeam_realm_key(MISSING(state), NULL, 0, NULL, 0, 0, 0, 0, out);
    pbeam_realm_key(state, NULL, 0, NULL, 0, 0, 0, 0, MISSING(out));
    pbeam_platform_token(MISSING(state), session, NULL, 0, NULL, 0, 0, 0, 0, 0, out);
    pbeam_platform_token(state, MISSING(session), NULL, 0, NULL, 0, 0, 0, 0, 0, out);
    pbeam_platform_token(state, session, NULL, 0, NULL, 0, 0, 0, 0, 0, MISSING(out));
    pbeam_challenge(MISSING(state), NULL, 0, 0, 0, 0, place);
    pbeam_challenge(state, NULL, 0, 0, 0, 0, MISSING(place));
    pbeam_features(MISSING(state), 0, out);
    pbeam_features(state, 0, MISSING(out));
    pbeam_token_signing(MISSING(state), queue, NULL, 0, NULL, 0, 0, 0, 0, 0, out);
    pbeam_token_signing(state, MISSING(queue), NULL, 0, NULL, 0, 0, 0, 0, 0, out);
    pbeam_token_signing(state, queue, NULL, 0, NULL, 0, 0, 0, 0, 0, MISSING(out));
    pbeam_key_update(MISSING(state), 0, 0, out, work);
    pbeam_key_update(state, 0, 0, MISSING(out), work);
    pbeam_key_update(state, 0, 0, out, MISSING(work));
    pbeam_forward(MISSING(state), 0);
    pbeam_sign(MISSING(queue), NULL, 0, out);
    pbeam_sign(queue, NULL, 0, MISSING(out));
    pbeam_oldest(MISSING(queue), request);
    pbeam_oldest(queue, MISSING(request));
    pbeam_responses(MISSING(queue));
    pbeam_call(MISSING(state), session, queue, NULL, 0, granules, NULL, 0, NULL, 0, NULL, 0, NULL, 0, 0, NULL, 0, 0, call, out, work);
    pbeam_call(state, MISSING(session), queue, NULL, 0, granules, NULL, 0, NULL, 0, NULL, 0, NULL, 0, 0, NULL, 0, 0, call, out, work);
    pbeam_call(state, session, MISSING(queue), NULL, 0, granules, NULL, 0, NULL, 0, NULL, 0, NULL, 0, 0, NULL, 0, 0, call, out, work);
    pbeam_call(state, session, queue, NULL, 0, MISSING(granules), NULL, 0, NULL, 0, NULL, 0, NULL, 0, 0, NULL, 0, 0, call, out, work);
    pbeam_call(state, session, queue, NULL, 0, granules, NULL, 0, NULL, 0, NULL, 0, NULL, 0, 0, NULL, 0, 0, MISSING(call), out, work);
    pbeam_call(state, session, queue, NULL, 0, granules, NULL, 0, NULL, 0, NULL, 0, NULL, 0, 0, NULL, 0, 0, call, MISSING(out), work);
    pbeam_call(state, session, queue, NULL, 0, granules, NULL, 0, NULL, 0, NULL, 0, NULL, 0, 0, NULL, 0, 0, call, out, MISSING(work));

    /* potterbeam_pages.h */
    pbeam_mend(NULL, 0, 4096, MISSING(changed));

    /* potterbeam_tpm.h */
    pbeam_tpm_comm(MISSING(word), 0, 0, 0, 0, 0, NULL, 0, NULL, 0, 0, 0, number);
    pbeam_tpm_comm(word, 0, 0, 0, 0, 0, NULL, 0, NULL, 0, 0, 0, MISSING(number));
    pbeam_tpm_request(0, 0, 0, 0, 0, NULL, 0, 0, MISSING(place));

    /* potterbeam_swtpm.h */
    pbeam_swtpm_read_request(NULL, 0, 0, MISSING(parts));
    pbeam_swtpm_write_request(NULL, 0, 0, 0, 0, 0, MISSING(length));
    pbeam_swtpm_read_response(NULL, 0, 0, MISSING(parts));
    pbeam_swtpm_write_response(NULL, 0, 0, 0, 0, 0, NULL, 0, MISSING(length));
    pbeam_swtpm_collect(MISSING(parts), NULL, 0, 0, NULL, 0);
    pbeam_swtpm_complete(MISSING(parts));
    pbeam_swtpm_held(MISSING(parts));
}

/* Images as structs. */
void structs_missing(pbeam_context_t *context, pbeam_page_t *page, pbeam_page_t *target, pbeam_view_t *view, pbeam_place_t *place,
                     pbeam_field_t *field, pbeam_record_t *record, pbeam_session_t *session, pbeam_queue_t *queue, pbeam_request_t *request,
                     pbeam_call_t *call, pbeam_registers_t *out, pbeam_work_t *work, pbeam_response_t *response, pbeam_changes_t *changes,
                     pbeam_console_t *console, pbeam_lists_t *lists, pbeam_cold_t *cold, uint64_t *number, uint8_t *bytes, uint8_t *hash,
                     char *text, size_t *length)
{
    /* potterbeam_types.h */
    pbeam_get16(MISSING(bytes));
    pbeam_get32(MISSING(bytes));
    pbeam_get64(MISSING(bytes));
    pbeam_put16(MISSING(bytes), 0);
    pbeam_put32(MISSING(bytes), 0);
    pbeam_put64(MISSING(bytes), 0);
    pbeam_console_set_name(MISSING(console), text);
    pbeam_console_set_name(console, MISSING(text));
    pbeam_console_text(MISSING(console), text);
    pbeam_console_text(console, MISSING(text));
    pbeam_fields_add(MISSING(bytes), 0, length, 1, pbeam_bytes(NULL, 0));
    pbeam_fields_add(bytes, 0, MISSING(length), 1, pbeam_bytes(NULL, 0));
    pbeam_manifest_write(4096, 4, MISSING(lists), page);
    pbeam_manifest_write(4096, 4, lists, MISSING(page));
    pbeam_manifest_read(MISSING(page), 4096, 4, view);
    pbeam_manifest_read(page, 4096, 4, MISSING(view));
    pbeam_manifest_listing(MISSING(page), 4096, 4, text, 0);
    pbeam_view_minor(MISSING(view));
    pbeam_view_edition(MISSING(view));
    pbeam_view_plat_data(MISSING(view));
    pbeam_view_kept(MISSING(page), view);
    pbeam_view_kept(page, MISSING(view));
    pbeam_view_section(MISSING(view), 0);
    pbeam_view_array(MISSING(page), view, 0, place);
    pbeam_view_array(page, MISSING(view), 0, place);
    pbeam_view_array(page, view, 0, MISSING(place));
    pbeam_view_count(MISSING(page), view, 0);
    pbeam_view_count(page, MISSING(view), 0);
    pbeam_view_word(MISSING(page), view, 0, 0, 0);
    pbeam_view_word(page, MISSING(view), 0, 0, 0);
    pbeam_view_field_count(MISSING(page), view);
    pbeam_view_field_count(page, MISSING(view));
    pbeam_view_field(MISSING(page), view, 0);
    pbeam_view_field(page, MISSING(view), 0);
    pbeam_view_field_of_tag(MISSING(page), view, 1);
    pbeam_view_field_of_tag(page, MISSING(view), 1);
    pbeam_view_field_start(MISSING(page), view);
    pbeam_view_field_start(page, MISSING(view));
    pbeam_view_field_next(MISSING(page), length);
    pbeam_view_field_next(page, MISSING(length));
    pbeam_field_found(MISSING(field));
    pbeam_field_withdrawn(MISSING(field));
    pbeam_field_tag(MISSING(field));
    pbeam_field_value(MISSING(page), field);
    pbeam_field_value(page, MISSING(field));
    pbeam_view_board_name(MISSING(page), view);
    pbeam_view_board_name(page, MISSING(view));
    pbeam_view_serial(MISSING(page), view);
    pbeam_view_serial(page, MISSING(view));
    pbeam_view_dram(MISSING(page), view, 0);
    pbeam_view_dram(page, MISSING(view), 0);
    pbeam_view_region(MISSING(page), view, 0, 0);
    pbeam_view_region(page, MISSING(view), 0, 0);
    pbeam_view_console(MISSING(page), view, 0);
    pbeam_view_console(page, MISSING(view), 0);
    pbeam_view_console_named(MISSING(page), view, text, console);
    pbeam_view_console_named(page, MISSING(view), text, console);
    pbeam_view_console_named(page, view, MISSING(text), console);
    pbeam_view_console_named(page, view, text, MISSING(console));
    pbeam_place_offset(MISSING(place));
    pbeam_place_length(MISSING(place));
    pbeam_version(0, 0, MISSING(number));
    pbeam_record_reset(MISSING(record));
    pbeam_record_close(MISSING(record));
    pbeam_record_cold_boot(MISSING(record), cold, 0, 0, page);
    pbeam_record_cold_boot(record, MISSING(cold), 0, 0, page);
    pbeam_record_cold_boot(record, cold, 0, 0, MISSING(page));
    pbeam_record_warm_boot(MISSING(record), 0);
    pbeam_record_is_up(MISSING(record));
    pbeam_record_cpus(MISSING(record));
    pbeam_record_base(MISSING(record));
    pbeam_record_minor(MISSING(record));
    pbeam_record_kept(MISSING(record));
    pbeam_registers_x0(MISSING(out));
    pbeam_registers_x1(MISSING(out));
    pbeam_registers_x2(MISSING(out));
    pbeam_registers_code(MISSING(out));
    pbeam_work_is(MISSING(work), 0);
    pbeam_work_value(MISSING(work));
    pbeam_session_reset(MISSING(session));
    pbeam_queue_reset(MISSING(queue));
    pbeam_session_is_sending(MISSING(session));
    pbeam_view_granules(MISSING(page), view);
    pbeam_view_granules(page, MISSING(view));
    pbeam_context_set_up_granules(MISSING(context), page, view);
    pbeam_context_set_up_granules(context, MISSING(page), view);
    pbeam_context_set_up_granules(context, page, MISSING(view));
    pbeam_context_build_words(MISSING(context));
    pbeam_context_words_agree(MISSING(context));
    pbeam_context_realm_count(MISSING(context), number);
    pbeam_context_realm_count(context, MISSING(number));
    pbeam_context_realm_next(MISSING(context), 0, number);
    pbeam_context_realm_next(context, 0, MISSING(number));
    pbeam_context_call(MISSING(context), call, out, work);
    pbeam_context_call(context, MISSING(call), out, work);
    pbeam_context_call(context, call, MISSING(out), work);
    pbeam_context_call(context, call, out, MISSING(work));
    pbeam_context_delegate_list(MISSING(context), NULL, 0, out);
    pbeam_context_delegate_list(context, NULL, 0, MISSING(out));
    pbeam_context_undelegate_list(MISSING(context), NULL, 0, out);
    pbeam_context_undelegate_list(context, NULL, 0, MISSING(out));
    pbeam_context_challenge(MISSING(context), call, place);
    pbeam_context_challenge(context, MISSING(call), place);
    pbeam_context_challenge(context, call, MISSING(place));
    pbeam_queue_responses(MISSING(queue));
    pbeam_queue_oldest(MISSING(queue), request);
    pbeam_queue_oldest(queue, MISSING(request));
    pbeam_queue_sign(MISSING(queue), pbeam_bytes(NULL, 0), out);
    pbeam_queue_sign(queue, pbeam_bytes(NULL, 0), MISSING(out));
    pbeam_request_sig_alg_id(MISSING(request));
    pbeam_request_rec_granule(MISSING(request));
    pbeam_request_req_ticket(MISSING(request));
    pbeam_request_hash_alg_id(MISSING(request));
    pbeam_request_hash_buf(MISSING(request), hash);
    pbeam_request_hash_buf(request, MISSING(hash));
    pbeam_put_request(MISSING(bytes), 0, 0, hash);
    pbeam_put_request(bytes, 0, 0, MISSING(hash));
    pbeam_get_response(MISSING(bytes), 0, response);
    pbeam_get_response(bytes, 0, MISSING(response));

    /* potterbeam_pages.h */
    pbeam_manifest_pack(MISSING(page), 4096, target);
    pbeam_manifest_pack(page, 4096, MISSING(target));
    pbeam_manifest_mend(MISSING(page), 4096, changes);
    pbeam_manifest_mend(page, 4096, MISSING(changes));
    pbeam_changes_any(MISSING(changes));
}

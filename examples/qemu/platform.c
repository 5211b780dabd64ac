#include "platform.h"

#include "board.h"
#include "console.h"
#include "lock.h"

#define SIGNATURE_TURNS 50000 /* how long the making of a signature takes */

static uint8_t realm_key[REALM_KEY_BYTES], public_key[PUBLIC_KEY_BYTES];
static size_t token_length; /* of every token that is lent */

bool platform_gives(pbeam_context_t *kit, uint64_t key_bytes, uint64_t token_bytes, uint64_t width)
{
    if (key_bytes > REALM_KEY_BYTES || token_bytes > TOKEN_BYTES)
        return false;
    kit->realm_key = pbeam_bytes(realm_key, key_bytes);
    token_length = token_bytes;
    kit->mecid_width = width;
    return true;
}

void platform_start(pbeam_context_t *kit)
{
    memset(realm_key, 0x21, sizeof realm_key);
    (void)platform_gives(kit, REALM_KEY_BYTES, TOKEN_BYTES, PBEAM_WIDTH_MOST);
}

/* The part that makes tokens is slow: it answers the second request. */
static struct {
    uint8_t challenge[PBEAM_CHALLENGE_SHA512];
    size_t length; /* 0: it has nothing to do */
} maker;

/* The one that a session is lent, and one to make the next. */
static uint8_t tokens[2][TOKEN_BYTES];
static size_t lent;

static bool same(const uint8_t *a, const uint8_t *b, size_t n)
{
    for (size_t i = 0; i < n; i++)
        if (a[i] != b[i])
            return false;
    return true;
}

/* Returns whether the token for this challenge, EL3's copy, is made, into `into`. */
static bool maker_has(const uint8_t *challenge, size_t length, uint8_t into[TOKEN_BYTES], bool quiet)
{
    if (maker.length != length || !same(maker.challenge, challenge, length)) {
        memcpy(maker.challenge, challenge, length);
        maker.length = length;
        if (!quiet)
            say("EL3: begins a token for a challenge of %d bytes\n", (uint64_t)length);
        return false;
    }
    for (size_t i = 0; i < TOKEN_BYTES; i++)
        into[i] = (uint8_t)(challenge[i % length] + i);
    maker.length = 0;
    return true;
}

/* The token of a session that is under way is never written: a start that gets AGAIN leaves that session unchanged. */
bool platform_choose_token(pbeam_context_t *kit, const pbeam_call_t *call, bool quiet)
{
    uint8_t challenge[PBEAM_CHALLENGE_SHA512];
    pbeam_place_t place;
    kit->busy = false;
    kit->token = pbeam_bytes(tokens[lent], token_length);
    /* The challenge is where the first hunk will be written, so it is read before the call; and it is read once, into EL3's own memory: the
     * monitor on another CPU may change the page between a comparison and the making of the token. */
    (void)pbeam_context_challenge(kit, call, &place);
    if (pbeam_place_length(&place) == 0)
        return false; /* the call goes on, or will be refused */
    memcpy(challenge, kit->page->bytes + pbeam_place_offset(&place), pbeam_place_length(&place));
    if (!maker_has(challenge, pbeam_place_length(&place), tokens[1 - lent], quiet)) {
        kit->busy = true;
        return false;
    }
    kit->token = pbeam_bytes(tokens[1 - lent], token_length);
    return true;
}

void platform_token_is_lent(void)
{
    lent = 1 - lent;
}

/* The signature begins with the first two bytes of the hash, so that the monitor can tell whose it is. */
static void sign_oldest(pbeam_queue_t *queue, const pbeam_request_t *request, bool quiet)
{
    pbeam_registers_t out;
    uint8_t hash[PBEAM_HASH_BYTES], signature[SIGNATURE_BYTES];
    pbeam_request_hash_buf(request, hash);
    memset(signature, 0x5A, sizeof signature);
    signature[0] = hash[0];
    signature[1] = hash[1];
    pass_time(SIGNATURE_TURNS);
    pbeam_queue_sign(queue, pbeam_bytes(signature, sizeof signature), &out);
    if (quiet)
        return;
    say("EL3: signs for granule 0x%x, ticket %d: %s\n", pbeam_request_rec_granule(request), pbeam_request_req_ticket(request),
        pbeam_x0_text(pbeam_registers_x0(&out)));
}

/* The oldest request and the signature of it are under one lock. With a lock around each alone two CPUs get the same request, and the second
 * signature goes to the next ticket. */
void platform_sign(pbeam_context_t *kit, bool quiet)
{
    pbeam_request_t request;
    memset(public_key, 0x04, sizeof public_key);
    kit->public_key = pbeam_bytes(public_key, sizeof public_key);
    while (pbeam_queue_oldest(&kit->queue, &request) != 0 && pbeam_queue_responses(&kit->queue) < PBEAM_RESPONSES_MOST)
        sign_oldest(&kit->queue, &request, quiet);
}

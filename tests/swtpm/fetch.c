/*
 * Fetches the permanent state of a running swtpm over its control channel, with requests that the library writes and the library's
 * collector, and prints the answers. Then it asks for what swtpm refuses.
 *
 *   fetch SOCKET FILE     SOCKET: the control channel, a Unix socket; FILE: where the blob is written
 */
#include <stdio.h>
#include <stdlib.h>
#include <string.h>
#include <sys/socket.h>
#include <sys/time.h>
#include <sys/un.h>
#include <unistd.h>

#include "potterbeam_swtpm.h"

#define LARGEST (1u << 20)
#define CMD_INIT 2

static uint8_t message[PBEAM_SWTPM_HEAD_BYTES + LARGEST];
static uint8_t blob[LARGEST];

static void fail(const char *what)
{
    printf("FAILED: %s\n", what);
    exit(1);
}

static uint32_t number(const uint8_t *at)
{
    return (uint32_t)at[0] << 24 | (uint32_t)at[1] << 16 | (uint32_t)at[2] << 8 | at[3];
}

static int channel(const char *path)
{
    struct sockaddr_un address = {.sun_family = AF_UNIX};
    struct timeval patience = {.tv_sec = 2, .tv_usec = 0};
    int fd = socket(AF_UNIX, SOCK_STREAM, 0);
    if (fd < 0 || strlen(path) >= sizeof address.sun_path)
        fail("no socket");
    strcpy(address.sun_path, path);
    if (connect(fd, (const struct sockaddr *)&address, sizeof address) != 0)
        fail("swtpm does not listen");
    setsockopt(fd, SOL_SOCKET, SO_RCVTIMEO, &patience, sizeof patience);
    return fd;
}

/* Reads that many bytes, or fewer if no more come. */
static size_t receive(int fd, uint8_t *to, size_t wanted)
{
    size_t there = 0;
    while (there < wanted) {
        ssize_t n = read(fd, to + there, wanted - there);
        if (n <= 0)
            break;
        there += (size_t)n;
    }
    return there;
}

/* Asks for a blob from an offset on. The answer is in message: its four numbers, then `length` bytes, the last of the four. */
static size_t ask(int fd, uint32_t type, uint32_t offset)
{
    uint8_t request[PBEAM_SWTPM_REQUEST_BYTES];
    size_t len = 0, there, data;
    if (pbeam_swtpm_write_request(request, sizeof request, PBEAM_SWTPM_CMD_GET_STATEBLOB, 0, type, offset, &len) != PBEAM_SWTPM_OK)
        fail("no request");
    if (write(fd, request, len) != (ssize_t)len)
        fail("the request is not sent");
    there = receive(fd, message, PBEAM_SWTPM_HEAD_BYTES);
    printf("asked for type %u from %u: ", type, offset);
    if (there < PBEAM_SWTPM_HEAD_BYTES) {
        printf("%zu bytes", there);
        if (there >= 4)
            printf(", tpm_result 0x%x", number(message));
        printf("\n");
        return there;
    }
    data = number(message + 12);
    printf("tpm_result 0x%x, state_flags %u, totlength %u, length %zu\n", number(message), number(message + 4), number(message + 8),
           data);
    if (data > LARGEST)
        fail("more data than there is room for");
    return there + receive(fd, message + PBEAM_SWTPM_HEAD_BYTES, data);
}

static void start(int fd)
{
    const uint8_t init[8] = {0, 0, 0, CMD_INIT};
    uint8_t result[4];
    if (write(fd, init, sizeof init) != sizeof init || receive(fd, result, 4) != 4 || number(result) != 0)
        fail("the TPM does not start");
}

/* Prints one answer, and how the library reads it. */
static void look(const char *path, uint32_t type, uint32_t offset, uint32_t expected)
{
    uint32_t parts[PBEAM_SWTPM_PARTS_WORDS];
    int fd = channel(path);
    uint32_t answer = pbeam_swtpm_read_response(message, ask(fd, type, offset), LARGEST, parts);
    printf("  read by the library: %s\n", pbeam_swtpm_text(answer));
    close(fd);
    if (answer != expected)
        fail("another answer was expected");
}

/* Collects a blob from its start; returns its length. */
static uint32_t collect(const char *path, uint32_t type)
{
    uint32_t collector[PBEAM_SWTPM_COLLECTOR_WORDS] = {0};
    int fd = channel(path);
    while (!pbeam_swtpm_complete(collector)) {
        size_t there = ask(fd, type, pbeam_swtpm_held(collector));
        uint32_t answer = pbeam_swtpm_collect(collector, message, there, LARGEST, blob, sizeof blob);
        printf("  collected: %s; %u bytes held\n", pbeam_swtpm_text(answer), pbeam_swtpm_held(collector));
        if (answer != PBEAM_SWTPM_OK)
            fail("the piece is not accepted");
    }
    close(fd);
    return pbeam_swtpm_held(collector);
}

/* The rest of a blob, for a collector that holds what is before it. */
static void collect_rest(const char *path, uint32_t type, uint32_t total, uint32_t held)
{
    uint32_t collector[PBEAM_SWTPM_COLLECTOR_WORDS] = {1, total, held};
    int fd = channel(path);
    size_t there = ask(fd, type, held);
    uint32_t answer = pbeam_swtpm_collect(collector, message, there, LARGEST, blob, sizeof blob);
    printf("  collected behind %u bytes of %u: %s\n", held, total, pbeam_swtpm_text(answer));
    close(fd);
}

int main(int argc, char **argv)
{
    const uint32_t permanent = PBEAM_SWTPM_BLOB_TYPE_PERMANENT;
    uint32_t len;
    FILE *file;
    int fd;
    if (argc != 3)
        fail("usage: fetch SOCKET FILE");
    look(argv[1], permanent, 0, PBEAM_SWTPM_CUT_SHORT); /* not started yet: an answer of 4 bytes */
    fd = channel(argv[1]);
    start(fd);
    close(fd);
    collect(argv[1], PBEAM_SWTPM_BLOB_TYPE_VOLATILE);
    len = collect(argv[1], permanent);
    file = fopen(argv[2], "wb");
    if (file == NULL || fwrite(blob, 1, len, file) != len || fclose(file) != 0)
        fail("the blob is not written");
    collect_rest(argv[1], permanent, len, len / 2);
    look(argv[1], permanent, len, PBEAM_SWTPM_OK);
    look(argv[1], permanent, len + 1, PBEAM_SWTPM_OK);
    look(argv[1], 99, 0, PBEAM_SWTPM_FAILED);
    return 0;
}

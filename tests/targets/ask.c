/* `cvr_call` by the module of WebAssembly: sends what it is given to serve.mjs, which is at CVR_SOCKET, and puts what comes
   back in its place. */
#include "cvr.h"
#include <stdlib.h>
#include <string.h>
#include <sys/socket.h>
#include <sys/un.h>
#include <unistd.h>

static void send_all(int file, const void *bytes, size_t size) {
    for (ssize_t sent; size; bytes = (const char *)bytes + sent, size -= (size_t)sent)
        if ((sent = write(file, bytes, size)) <= 0)
            exit(96);
}

static void take_all(int file, void *bytes, size_t size) {
    for (ssize_t taken; size; bytes = (char *)bytes + taken, size -= (size_t)taken)
        if ((taken = read(file, bytes, size)) <= 0)
            exit(95);
}

uint8_t cvr_call(const uint8_t *input, size_t input_len, const size_t *ends, size_t ends_len, size_t words,
                 uint8_t *text, size_t text_len, uint8_t *log, size_t log_len, CvrSizes *sizes) {
    struct sockaddr_un address = {.sun_family = AF_UNIX};
    uint64_t head[] = {input_len, ends_len, words, text_len, log_len};
    uint8_t status;
    int file = socket(AF_UNIX, SOCK_STREAM, 0);
    strncpy(address.sun_path, getenv("CVR_SOCKET"), sizeof address.sun_path - 1);
    if (file < 0 || connect(file, (void *)&address, sizeof address))
        exit(97);
    send_all(file, head, sizeof head);
    send_all(file, sizes, sizeof *sizes);
    send_all(file, ends, ends_len * sizeof *ends);
    send_all(file, text, text_len);
    send_all(file, log, log_len);
    send_all(file, input, input_len);
    shutdown(file, SHUT_WR);
    take_all(file, &status, 1);
    take_all(file, sizes, sizeof *sizes);
    take_all(file, text, text_len);
    take_all(file, log, log_len);
    close(file);
    return status;
}

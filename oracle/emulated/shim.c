/* The library's functions on a machine that is not x86-64: each thread starts its x86-64 code in the emulator and asks it. */
#include "prskavon.h"

#include <stdint.h>
#include <stdio.h>
#include <stdlib.h>
#include <string.h>
#include <sys/uio.h>
#include <unistd.h>

struct head {
    uint32_t function, length[3], room;
};
static _Thread_local int to_server = -1, from_server = -1;

static void broken(const char *what)
{
    fprintf(stderr, "emulated library: %s\n", what);
    abort();
}

static void start(void)
{
    int there[2], back[2];
    if (pipe(there) || pipe(back)) broken("no pipe");
    pid_t child = fork();
    if (child < 0) broken("no process");
    if (child == 0) {
        dup2(there[0], 0);
        dup2(back[1], 1);
        for (int fd = 3; fd < 256; fd++) close(fd);
        execl(EMULATOR, EMULATOR, SERVER, (char *)0);
        _exit(127);
    }
    close(there[0]);
    close(back[1]);
    to_server = there[1];
    from_server = back[0];
}

static void send_all(const void *bytes, size_t length)
{
    for (const uint8_t *at = bytes; length;) {
        ssize_t n = write(to_server, at, length);
        if (n <= 0) broken("the server takes nothing");
        at += n;
        length -= (size_t)n;
    }
}

static void receive(void *bytes, size_t length)
{
    for (uint8_t *at = bytes; length;) {
        ssize_t n = read(from_server, at, length);
        if (n <= 0) broken("the server ended");
        at += n;
        length -= (size_t)n;
    }
}

static uint64_t ask(uint32_t function, const uint8_t *const in[3], const size_t length[3], uint8_t *room, size_t room_len)
{
    static _Thread_local uint8_t frame[1 << 16];
    struct head head = {function, {(uint32_t)length[0], (uint32_t)length[1], (uint32_t)length[2]}, (uint32_t)room_len};
    uint64_t answer[2];
    size_t used = sizeof head;
    if (to_server < 0) start();
    if (used + length[0] + length[1] + length[2] + room_len > sizeof frame) broken("a call that is too long for it");
    memcpy(frame, &head, sizeof head);
    for (int i = 0; i < 3; i++) {
        if (length[i]) memcpy(frame + used, in[i], length[i]);
        used += length[i];
    }
    if (room_len) memcpy(frame + used, room, room_len);
    send_all(frame, used + room_len);
    receive(answer, sizeof answer);
    receive(room, room_len);
    if (answer[1]) broken("bytes outside of the lent buffer were written");
    return answer[0];
}

#define ASK(n, a, al, b, bl, c, cl, room, room_len)                                                                                \
    ask(n, (const uint8_t *const[3]){a, b, c}, (const size_t[3]){al, bl, cl}, room, room_len)

uint64_t prskavon_sheet_of_train(const uint8_t *v, size_t vl, const uint8_t *o, size_t ol, uint8_t *s, size_t sl)
{
    return ASK(0, v, vl, o, ol, 0, 0, s, sl);
}
uint64_t prskavon_account_of(const uint8_t *p, size_t pl, uint8_t *a, size_t al) { return ASK(1, p, pl, 0, 0, 0, 0, a, al); }
uint64_t prskavon_join(const uint8_t *l, size_t ll, const uint8_t *r, size_t rl, uint8_t *a, size_t al)
{
    return ASK(2, l, ll, r, rl, 0, 0, a, al);
}
uint64_t prskavon_sheet_of_account(const uint8_t *e, size_t el, const uint8_t *h, size_t hl, const uint8_t *o, size_t ol,
                                   uint8_t *s, size_t sl)
{
    return ASK(3, e, el, h, hl, o, ol, s, sl);
}
size_t prskavon_holds_the_speed(const uint8_t *f, size_t fl, const uint8_t *b, size_t bl, uint8_t *v, size_t vl)
{
    return (size_t)ASK(4, f, fl, b, bl, 0, 0, v, vl);
}
uint64_t prskavon_route_of_train(const uint8_t *v, size_t vl, const uint8_t *o, size_t ol, uint8_t *s, size_t sl)
{
    return ASK(5, v, vl, o, ol, 0, 0, s, sl);
}
uint64_t prskavon_route_of_account(const uint8_t *e, size_t el, const uint8_t *h, size_t hl, const uint8_t *o, size_t ol,
                                   uint8_t *s, size_t sl)
{
    return ASK(6, e, el, h, hl, o, ol, s, sl);
}

/* Runs the functions of the static library for calls that come on standard input. x86-64 Linux, no C library and none of its
 * headers. */
typedef __SIZE_TYPE__ size_t;
typedef __UINT8_TYPE__ uint8_t;
typedef __UINT32_TYPE__ uint32_t;
typedef __UINT64_TYPE__ uint64_t;

uint64_t prskavon_sheet_of_train(const uint8_t *, size_t, const uint8_t *, size_t, uint8_t *, size_t);
uint64_t prskavon_account_of(const uint8_t *, size_t, uint8_t *, size_t);
uint64_t prskavon_join(const uint8_t *, size_t, const uint8_t *, size_t, uint8_t *, size_t);
uint64_t prskavon_sheet_of_account(const uint8_t *, size_t, const uint8_t *, size_t, const uint8_t *, size_t, uint8_t *, size_t);
size_t prskavon_holds_the_speed(const uint8_t *, size_t, const uint8_t *, size_t, uint8_t *, size_t);
uint64_t prskavon_route_of_train(const uint8_t *, size_t, const uint8_t *, size_t, uint8_t *, size_t);
uint64_t prskavon_route_of_account(const uint8_t *, size_t, const uint8_t *, size_t, const uint8_t *, size_t, uint8_t *, size_t);

/* What the library asks of the C library. */
void *memcpy(void *to, const void *from, size_t n)
{
    uint8_t *t = to;
    const uint8_t *f = from;
    for (size_t i = 0; i < n; i++) {
        t[i] = f[i];
        __asm__ volatile("" ::: "memory"); /* or this loop becomes a call of itself */
    }
    return to;
}

void *memmove(void *to, const void *from, size_t n)
{
    uint8_t *t = to;
    const uint8_t *f = from;
    if (t <= f) return memcpy(to, from, n);
    while (n--) {
        t[n] = f[n];
        __asm__ volatile("" ::: "memory");
    }
    return to;
}

static long system_call(long number, long a, long b, long c)
{
    long result;
    __asm__ volatile("syscall" : "=a"(result) : "a"(number), "D"(a), "S"(b), "d"(c) : "rcx", "r11", "memory");
    return result;
}

static void leave(int status)
{
    system_call(231, status, 0, 0);
    for (;;) {
    }
}

static void need(uint8_t *to, size_t n)
{
    while (n) {
        long got = system_call(0, 0, (long)to, (long)n);
        if (got <= 0) leave(got == 0 ? 0 : 3);
        to += got;
        n -= (size_t)got;
    }
}

static void give(const uint8_t *from, size_t n)
{
    while (n) {
        long put = system_call(1, 1, (long)from, (long)n);
        if (put <= 0) leave(4);
        from += put;
        n -= (size_t)put;
    }
}

/* A lent buffer stands between two guards, so that a byte written outside of it is told. */
enum { GUARD = 64, MOST = 1 << 16 };
static uint8_t lent_in[3][MOST], lent[GUARD + MOST + GUARD], reply[16 + MOST];

struct head {
    uint32_t function, length[3], room;
};

static uint8_t guard(size_t i) { return (uint8_t)(0x5b ^ (i * 29)); }

static uint64_t call(const struct head *h, uint8_t *room)
{
    switch (h->function) {
    case 0: return prskavon_sheet_of_train(lent_in[0], h->length[0], lent_in[1], h->length[1], room, h->room);
    case 1: return prskavon_account_of(lent_in[0], h->length[0], room, h->room);
    case 2: return prskavon_join(lent_in[0], h->length[0], lent_in[1], h->length[1], room, h->room);
    case 3:
        return prskavon_sheet_of_account(lent_in[0], h->length[0], lent_in[1], h->length[1], lent_in[2], h->length[2], room,
                                         h->room);
    case 4: return prskavon_holds_the_speed(lent_in[0], h->length[0], lent_in[1], h->length[1], room, h->room);
    case 5: return prskavon_route_of_train(lent_in[0], h->length[0], lent_in[1], h->length[1], room, h->room);
    case 6:
        return prskavon_route_of_account(lent_in[0], h->length[0], lent_in[1], h->length[1], lent_in[2], h->length[2], room,
                                         h->room);
    default: leave(6); return 0;
    }
}

static void serve(void)
{
    struct head h;
    need((uint8_t *)&h, sizeof h);
    for (int i = 0; i < 3; i++) {
        if (h.length[i] > MOST) leave(5);
        need(lent_in[i], h.length[i]);
    }
    if (h.room > MOST) leave(5);
    uint8_t *room = lent + GUARD;
    need(room, h.room);
    for (size_t i = 0; i < GUARD; i++) {
        lent[i] = guard(i);
        room[h.room + i] = guard(i + 1);
    }
    uint64_t answer = call(&h, room), touched = 0;
    for (size_t i = 0; i < GUARD; i++) touched += lent[i] != guard(i) || room[h.room + i] != guard(i + 1);
    for (int i = 0; i < 8; i++) {
        reply[i] = (uint8_t)(answer >> (8 * i));
        reply[8 + i] = (uint8_t)(touched >> (8 * i));
    }
    for (size_t i = 0; i < h.room; i++) reply[16 + i] = room[i];
    give(reply, 16 + h.room);
}

__attribute__((force_align_arg_pointer)) void _start(void)
{
    for (;;) serve();
}

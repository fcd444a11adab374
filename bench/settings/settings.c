/* Reconnect settings beside a yardstick by hand: the same checks, replies and bytes, nothing of it proved. Ends with status 1 where an answer
 * differs. Each job is a function of its own, so that its instructions can be counted: settings JOB runs one. */
#include <stdio.h>
#include <string.h>

#include "../../bindings/c/saltorchard.h"

enum { LAST = (1 << 24) - 1, ROUNDS = 1000 };

/* ---- the yardstick */

static uint32_t number_of(const uint8_t *four)
{
    return (uint32_t)four[0] << 24 | (uint32_t)four[1] << 16 | (uint32_t)four[2] << 8 | four[3];
}

static void put_number(uint8_t *four, uint32_t n)
{
    four[0] = (uint8_t)(n >> 24);
    four[1] = (uint8_t)(n >> 16);
    four[2] = (uint8_t)(n >> 8);
    four[3] = (uint8_t)n;
}

static uint64_t milliseconds_in(uint32_t n)
{
    return (uint64_t)(n & LAST) * (n >> 28 == 1 ? 1000 : 1);
}

static int known(uint32_t n)
{
    return (n >> 28 == 1 || n >> 28 == 2) && (n >> 24 & 15) <= SALTORCHARD_RSA;
}

static saltorchard_setting said(uint32_t n)
{
    if (!known(n))
        return (saltorchard_setting){SALTORCHARD_UNKNOWN, 0, 0, 0};
    return (saltorchard_setting){0, 1, n >> 24 & 15, milliseconds_in(n)};
}

static saltorchard_setting get_by_hand(const uint8_t *store, size_t len, uint64_t device)
{
    if (device >= SALTORCHARD_DEVICES || len != SALTORCHARD_STORE_LEN)
        return (saltorchard_setting){SALTORCHARD_LENGTH, 0, 0, 0};
    uint32_t n = number_of(store + 4 * device);
    return n ? said(n) : (saltorchard_setting){0, 0, 0, 0};
}

static saltorchard_reply put_by_hand(uint8_t *store, size_t len, uint64_t device, uint8_t version, uint8_t kind, uint64_t ms)
{
    if (device >= SALTORCHARD_DEVICES || len != SALTORCHARD_STORE_LEN)
        return (saltorchard_reply){SALTORCHARD_LENGTH, 0, 0, 0};
    if (version < 1 || version > 2 || kind > SALTORCHARD_RSA)
        return (saltorchard_reply){SALTORCHARD_UNKNOWN, 0, 0, 0};
    uint64_t delay = version == 1 ? ms / 1000 : ms;
    if (delay > LAST || (version == 1 && ms % 1000))
        return (saltorchard_reply){SALTORCHARD_TOO_LONG, 0, 0, 0};
    put_number(store + 4 * device, (uint32_t)version << 28 | (uint32_t)kind << 24 | (uint32_t)delay);
    return (saltorchard_reply){0, 0, 0, SALTORCHARD_STORE_LEN};
}

static saltorchard_reply move_by_hand(uint8_t *store, size_t len)
{
    int unknown = 0, large = 0;
    if (len != SALTORCHARD_STORE_LEN)
        return (saltorchard_reply){SALTORCHARD_LENGTH, 0, 0, 0};
    for (uint8_t *place = store; place < store + len; place += 4) {
        uint32_t n = number_of(place);
        unknown |= n && !known(n);
        large |= milliseconds_in(n) > LAST;
    }
    if (unknown || large)
        return (saltorchard_reply){unknown ? SALTORCHARD_UNKNOWN : SALTORCHARD_TOO_LONG, 0, 0, 0};
    for (uint8_t *place = store; place < store + len; place += 4) {
        uint32_t n = number_of(place);
        if (n)
            put_number(place, 2u << 28 | (n & 15u << 24) | (uint32_t)milliseconds_in(n));
    }
    return (saltorchard_reply){0, 0, 0, SALTORCHARD_STORE_LEN};
}

/* ---- the jobs: library and yardstick through pointers of the same types */

typedef saltorchard_setting getter(const uint8_t *, size_t, uint64_t);
typedef saltorchard_reply putter(uint8_t *, size_t, uint64_t, uint8_t, uint8_t, uint64_t);
typedef saltorchard_reply mover(uint8_t *, size_t);

/* Every device, of all kinds and both versions; the delays of version 1 can be moved, and every fifth place is unused. */
static void fill(uint8_t *store, putter *put)
{
    for (unsigned d = 0; d < SALTORCHARD_DEVICES; d++)
        if (d % 5)
            put(store, SALTORCHARD_STORE_LEN, d, (uint8_t)(1 + d % 2), (uint8_t)(d / 2 % 5), d % 2 ? d * 4321 : d * 521000);
}

__attribute__((noinline)) static uint64_t gets(getter *get, const uint8_t *store)
{
    uint64_t sum = 0;
    for (unsigned d = 0; d < SALTORCHARD_DEVICES; d++) {
        saltorchard_setting s = get(store, SALTORCHARD_STORE_LEN, d);
        sum = sum * 31 + s.number + 2 * s.used + 4 * s.kind + 32 * s.milliseconds;
    }
    return sum;
}

__attribute__((noinline)) static void puts_all(putter *put, uint8_t *store)
{
    fill(store, put);
}

__attribute__((noinline)) static uint64_t moves(mover *move, uint8_t *store)
{
    return move(store, SALTORCHARD_STORE_LEN).number;
}

static int differs(void)
{
    uint8_t ours[SALTORCHARD_STORE_LEN] = {0}, theirs[SALTORCHARD_STORE_LEN] = {0};
    puts_all(saltorchard_store_put, ours);
    puts_all(put_by_hand, theirs);
    if (memcmp(ours, theirs, sizeof ours) || gets(saltorchard_store_get, ours) != gets(get_by_hand, theirs))
        return 1;
    if (moves(saltorchard_store_move, ours) != moves(move_by_hand, theirs))
        return 1;
    return memcmp(ours, theirs, sizeof ours) || gets(saltorchard_store_get, ours) != gets(get_by_hand, theirs);
}

int main(int argc, char **argv)
{
    uint8_t first[SALTORCHARD_STORE_LEN] = {0}, store[SALTORCHARD_STORE_LEN];
    const char *job = argc > 1 ? argv[1] : "";
    if (differs()) {
        fputs("settings: the yardstick answers otherwise\n", stderr);
        return 1;
    }
    fill(first, put_by_hand);
    uint64_t sum = 0;
    for (int i = 0; i < ROUNDS; i++) {
        memcpy(store, first, sizeof store);
        if (!strcmp(job, "get"))
            sum += gets(saltorchard_store_get, store);
        if (!strcmp(job, "get_by_hand"))
            sum += gets(get_by_hand, store);
        if (!strcmp(job, "put"))
            puts_all(saltorchard_store_put, store);
        if (!strcmp(job, "put_by_hand"))
            puts_all(put_by_hand, store);
        if (!strcmp(job, "move"))
            sum += moves(saltorchard_store_move, store);
        if (!strcmp(job, "move_by_hand"))
            sum += moves(move_by_hand, store);
    }
    printf("%llu\n", (unsigned long long)(sum + store[0]));
    return 0;
}

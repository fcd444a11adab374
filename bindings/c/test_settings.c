/* Reads, writes, gets, puts and moves reconnect settings by saltorchard.h, and holds replies and bytes to docs/RULES.md, 18: every version,
 * every kind and the borders of every delay, each wrong length, device and place of a store, and what must stay of a lent buffer. What is
 * right is reckoned here, from numbers. A failed check is a line; the last line counts the checks. */
#define LENT 160

#include "saltorchard.h"

#include "checks.h"

/* A delay has 24 bits. */
#define DELAYS 16777216u

enum { RECORD = SALTORCHARD_SETTING_LEN, STORE = SALTORCHARD_STORE_LEN, DEVICES = SALTORCHARD_DEVICES };

static const uint64_t BORDERS[] = {
    0, 1, 2, 999, 1000, 1001, 1999, 2000, DELAYS - 216, DELAYS - 2, DELAYS - 1, DELAYS, DELAYS + 1, DELAYS + 784,
    DELAYS * 1000ull - 2000, DELAYS * 1000ull - 1001, DELAYS * 1000ull - 1000, DELAYS * 1000ull - 999, DELAYS * 1000ull - 1,
    DELAYS * 1000ull, DELAYS * 1000ull + 1, DELAYS * 1000ull + 1000, 4294967295u, 4294967296u, 4294967296u + 1000ull,
    4294967296u * 1000ull, 4294967296u * 1000ull + 1000, 1ull << 56, 1ull << 63, UINT64_MAX - 615, UINT64_MAX - 1, UINT64_MAX};
enum { BORDER_COUNT = sizeof BORDERS / sizeof *BORDERS };

/* ---- what is right */

/* The number that a record is, for a version and a kind of 4 bits each. */
static uint64_t record_of(uint64_t version, uint64_t kind, uint64_t delay)
{
    return (version * 16 + kind) * DELAYS + delay;
}

/* What is read of a record. */
static saltorchard_setting told(uint64_t record)
{
    uint64_t version = record / DELAYS / 16, kind = record / DELAYS % 16, delay = record % DELAYS;
    saltorchard_setting refused = {SALTORCHARD_UNKNOWN, 0, 0, 0}, setting = {0, 1, kind, version == 1 ? delay * 1000 : delay};
    return version < 1 || version > 2 || kind > 4 ? refused : setting;
}

/* The number with which a setting is written, and the record where that is 0. */
static uint64_t written(uint64_t version, uint64_t kind, uint64_t milliseconds, uint64_t *record)
{
    uint64_t unit = version == 1 ? 1000 : 1;
    if (version < 1 || version > 2 || kind > 4)
        return SALTORCHARD_UNKNOWN;
    if (milliseconds % unit != 0 || milliseconds / unit >= DELAYS)
        return SALTORCHARD_TOO_LONG;
    *record = record_of(version, kind, milliseconds / unit);
    return 0;
}

static void spell(uint8_t *at, uint64_t record)
{
    for (int i = RECORD - 1; i >= 0; i--, record /= 256)
        at[i] = (uint8_t)(record % 256);
}

/* The store: a number for each place. */
static uint64_t places[DEVICES];

/* The number with which the store is moved, and the moved places where that is 0. */
static uint64_t moved(uint64_t *to)
{
    uint64_t number = 0;
    for (int d = 0; d < DEVICES; d++)
        if (places[d] != 0 && told(places[d]).number != 0)
            number = SALTORCHARD_UNKNOWN;
    for (int d = 0; d < DEVICES && number == 0; d++)
        if (places[d] != 0 && told(places[d]).milliseconds >= DELAYS)
            number = SALTORCHARD_TOO_LONG;
    for (int d = 0; d < DEVICES; d++)
        to[d] = places[d] == 0 ? 0 : record_of(2, told(places[d]).kind, told(places[d]).milliseconds);
    return number;
}

/* ---- the calls, on the lent buffer */

static void answers_at(int line, saltorchard_setting got, saltorchard_setting right)
{
    if (!check_at(line, memcmp(&got, &right, sizeof got) == 0))
        printf("answers %d %d %d %.0f, not %d %d %d %.0f\n", (int)got.number, (int)got.used, (int)got.kind, (double)got.milliseconds,
               (int)right.number, (int)right.used, (int)right.kind, (double)right.milliseconds);
}

/* A record in the lent buffer, of so many lent bytes. */
static void reads_at(int line, uint64_t record, size_t length)
{
    saltorchard_setting refused = {SALTORCHARD_LENGTH, 0, 0, 0};
    lend_junk();
    spell(lent, record);
    spell(want + GUARD, record);
    answers_at(line, saltorchard_read_setting(lent, length), length == RECORD ? told(record) : refused);
    ground_at(line);
}

static void writes_at(int line, uint8_t version, uint8_t kind, uint64_t milliseconds, size_t length)
{
    uint64_t record = 0, number = length == RECORD ? written(version, kind, milliseconds, &record) : SALTORCHARD_LENGTH;
    lend_junk();
    if (number == 0)
        spell(want + GUARD, record);
    reply_at(line, saltorchard_write_setting(version, kind, milliseconds, lent, length), number, 0, 0, number == 0 ? RECORD : 0);
    ground_at(line);
}

static void lend_store(void)
{
    lend_junk();
    for (int d = 0; d < DEVICES; d++)
        spell(lent + RECORD * d, places[d]);
    memcpy(want, ground, sizeof ground);
}

static void gets_at(int line, uint64_t device, size_t length)
{
    saltorchard_setting refused = {SALTORCHARD_LENGTH, 0, 0, 0}, unused = {0, 0, 0, 0};
    lend_store();
    saltorchard_setting got = saltorchard_store_get(lent, length, device);
    if (device >= DEVICES || length != STORE)
        answers_at(line, got, refused);
    else
        answers_at(line, got, places[device] == 0 ? unused : told(places[device]));
    ground_at(line);
}

/* Puts, and keeps what is then right in `places`. */
static void puts_at(int line, uint64_t device, uint8_t version, uint8_t kind, uint64_t milliseconds, size_t length)
{
    uint64_t record = 0, number = SALTORCHARD_LENGTH;
    if (device < DEVICES && length == STORE)
        number = written(version, kind, milliseconds, &record);
    lend_store();
    if (number == 0) {
        places[device] = record;
        spell(want + GUARD + RECORD * device, record);
    }
    reply_at(line, saltorchard_store_put(lent, length, device, version, kind, milliseconds), number, 0, 0, number == 0 ? STORE : 0);
    ground_at(line);
}

/* Moves, and keeps what is then right in `places`. */
static void moves_at(int line, size_t length, uint64_t number)
{
    uint64_t to[DEVICES];
    true_at(line, number == (length == STORE ? moved(to) : SALTORCHARD_LENGTH), "the number is what is reckoned");
    lend_store();
    for (int d = 0; d < DEVICES && number == 0; d++) {
        places[d] = to[d];
        spell(want + GUARD + RECORD * d, to[d]);
    }
    reply_at(line, saltorchard_store_move(lent, length), number, 0, 0, number == 0 ? STORE : 0);
    ground_at(line);
}

#define READS(record, length) reads_at(__LINE__, (record), (length))
#define WRITES(version, kind, milliseconds, length) writes_at(__LINE__, (version), (kind), (milliseconds), (length))
#define GETS(device, length) gets_at(__LINE__, (device), (length))
#define PUTS(device, version, kind, milliseconds, length) puts_at(__LINE__, (device), (version), (kind), (milliseconds), (length))
#define MOVES(length, number) moves_at(__LINE__, (length), (number))

/* ---- a record by itself */

/* Every first half, with ends that are and aren't zero. */
static void every_beginning(void)
{
    static const uint64_t ENDS[] = {0, 1, 255, 256, 0x8000, 65535};
    for (uint64_t half = 0; half < 65536; half++) {
        now("first half", half);
        for (size_t i = 0; i < sizeof ENDS / sizeof *ENDS; i++)
            READS(half * 65536 + ENDS[i], RECORD);
    }
}

static void every_version_and_kind(void)
{
    for (unsigned version = 0; version < 256; version++) {
        now("version", version);
        for (unsigned kind = 0; kind < 256; kind++)
            for (size_t i = 0; i < BORDER_COUNT; i++)
                WRITES((uint8_t)version, (uint8_t)kind, BORDERS[i], RECORD);
    }
}

/* 1 comes before all else. */
static void lengths(void)
{
    for (size_t length = 0; length < LENT; length++) {
        now("length", length);
        for (unsigned version = 0; version < 4; version++) {
            READS(record_of(version, version + 2, 5), length);
            for (size_t i = 0; i < BORDER_COUNT; i++)
                WRITES((uint8_t)version, (uint8_t)(version + 2), BORDERS[i], length);
        }
    }
}

/* The borders by their own names, beside what is reckoned. */
static void by_name(void)
{
    static const uint8_t MOST[] = {0x14, 0xff, 0xff, 0xff};
    now("by name", 0);
    lend_junk();
    memcpy(want + GUARD, MOST, RECORD);
    REPLY(saltorchard_write_setting(1, SALTORCHARD_RSA, 16777215000, lent, RECORD), 0, 0, 0, 4);
    KEPT();
    saltorchard_setting read = saltorchard_read_setting(MOST, sizeof MOST);
    CHECK(read.number == 0 && read.used == 1 && read.kind == SALTORCHARD_RSA && read.milliseconds == 16777215000);
    CHECK(saltorchard_read_setting((const uint8_t[4]){0}, 4).number == SALTORCHARD_UNKNOWN);
    CHECK(STORE == 128 && DEVICES == 32 && RECORD == 4);
}

/* ---- a store */

/* Of four places two are of version 1, one of version 2 and one is unused; all can be moved. */
static void fill(size_t which)
{
    for (size_t d = 0; d < DEVICES; d++) {
        size_t n = d + which;
        places[d] = n % 4 == 3 ? 0 : n % 4 == 2 ? record_of(2, n % 5, 65521 * n % DELAYS) : record_of(1, n % 5, 523 * n % 16778);
    }
}

/* Places of any version and kind. */
static void fill_with_junk(size_t which)
{
    for (size_t d = 0; d < DEVICES; d++)
        places[d] = (d * d + 7 * which + 3) * 2654435761u % 4294967296u;
}

static const uint64_t NO_DEVICES[] = {
    32, 33, 63, 64, 127, 128, 255, 256, 1ull << 31, 1ull << 32, (1ull << 32) + 1, 1ull << 59, 1ull << 62, (1ull << 62) + 1, 1ull << 63,
    UINT64_MAX - 31, UINT64_MAX};

static void gets(void)
{
    static const uint64_t RECORDS[] = {0, 1, 256, 0xffffff, 0x04000000, 0x10000000, 0x14ffffff, 0x15000000, 0x20000000, 0x24ffffff,
        0x25000000, 0x2f000000, 0x30000000, 0xf4000000, 0xffffffff};
    for (size_t d = 0; d < DEVICES; d++) {
        now("get", d);
        for (size_t i = 0; i < sizeof RECORDS / sizeof *RECORDS; i++)
            for (int junk = 0; junk < 2; junk++) {
                junk ? fill_with_junk(i) : fill(i);
                places[d] = RECORDS[i];
                GETS(d, STORE);
            }
    }
    for (size_t i = 0; i < sizeof NO_DEVICES / sizeof *NO_DEVICES; i++) {
        now("get of no device", i);
        GETS(NO_DEVICES[i], STORE);
        GETS(NO_DEVICES[i], 0);
    }
}

/* Over junk in all places, its own among them; a refused one leaves it there. */
static void puts_over_junk(void)
{
    for (size_t d = 0; d < DEVICES; d++) {
        now("put", d);
        for (unsigned version = 0; version < 4; version++)
            for (size_t i = 0; i < BORDER_COUNT; i++)
                for (unsigned kind = 0; kind < 6; kind++) {
                    fill_with_junk(i + kind);
                    PUTS(d, (uint8_t)version, (uint8_t)kind, BORDERS[i], STORE);
                    GETS(d, STORE);
                }
    }
}

/* Every version and every kind, at each place; and what has no place. */
static void puts_of_all(void)
{
    for (size_t d = 0; d < DEVICES; d++) {
        now("put of all", d);
        fill(d);
        for (unsigned byte = 0; byte < 256; byte++) {
            PUTS(d, (uint8_t)byte, (uint8_t)(d % 5), 1000, STORE);
            PUTS(d, (uint8_t)(1 + d % 2), (uint8_t)byte, 1000, STORE);
        }
    }
    for (size_t i = 0; i < sizeof NO_DEVICES / sizeof *NO_DEVICES; i++) {
        now("put of no device", i);
        PUTS(NO_DEVICES[i], 2, 4, 5, STORE);
        PUTS(NO_DEVICES[i], 3, 5, UINT64_MAX, STORE);
    }
}

/* A store that fills up, device after device, each of them put twice; then it is moved. */
static void puts_in_a_row(void)
{
    memset(places, 0, sizeof places);
    for (unsigned round = 0; round < 2; round++)
        for (size_t d = 0; d < DEVICES; d++) {
            now("put in a row", d);
            PUTS(d, (uint8_t)(1 + round), (uint8_t)(d % 5), 1000 * d + round, STORE);
            PUTS(d, (uint8_t)(2 - round), (uint8_t)((d + 1) % 5), 1000 * d, STORE);
            for (uint64_t other = 0; other < DEVICES; other++)
                GETS(other, STORE);
        }
    MOVES(STORE, 0);
}

static void store_lengths(void)
{
    for (size_t length = 0; length <= LENT; length++) {
        now("store's length", length);
        fill(length);
        GETS(length % DEVICES, length);
        PUTS(length % DEVICES, 1, 4, 7000, length);
        PUTS(32, 3, 5, UINT64_MAX, length);
        if (length != STORE) {
            MOVES(length, SALTORCHARD_LENGTH);
            places[3] = record_of(3, 5, 0);
            MOVES(length, SALTORCHARD_LENGTH);
        }
    }
}

/* ---- a move */

static void moves(void)
{
    now("moved, all unused", 0);
    memset(places, 0, sizeof places);
    MOVES(STORE, 0);
    for (size_t which = 0; which < 40; which++) {
        now("moved", which);
        fill(which);
        MOVES(STORE, 0);
        for (uint64_t d = 0; d < DEVICES; d++)
            GETS(d, STORE);
        MOVES(STORE, 0);
    }
    for (size_t d = 0; d < DEVICES; d++) {
        now("moved, one used", d);
        memset(places, 0, sizeof places);
        places[d] = record_of(1, d % 5, 16777);
        MOVES(STORE, 0);
        CHECK(places[d] == record_of(2, d % 5, 16777000));
        places[d] = record_of(2, d % 5, DELAYS - 1);
        MOVES(STORE, 0);
    }
}

/* The store with one bad place, or two, among good ones and among unused ones. */
static void refused_move(size_t one, uint64_t bad, size_t other, uint64_t bad_too, uint64_t number)
{
    for (size_t which = 0; which < 5; which++) {
        fill(which);
        if (which == 4)
            memset(places, 0, sizeof places);
        places[one] = bad;
        places[other] = bad_too;
        MOVES(STORE, number);
    }
}

/* Every version and kind that isn't taken, and delays that don't fit, at each place. */
static void one_bad_place(void)
{
    static const uint64_t LONG[] = {16778, 16779, 65536, DELAYS / 2, DELAYS - 1};
    for (size_t d = 0; d < DEVICES; d++) {
        now("bad place", d);
        for (uint64_t top = 0; top < 256; top++)
            if (told(top * DELAYS).number != 0) {
                refused_move(d, record_of(top / 16, top % 16, 1), d, record_of(top / 16, top % 16, 1), SALTORCHARD_UNKNOWN);
                if (top != 0)
                    refused_move(d, record_of(top / 16, top % 16, 0), d, record_of(top / 16, top % 16, 0), SALTORCHARD_UNKNOWN);
            }
        for (size_t i = 0; i < sizeof LONG / sizeof *LONG; i++)
            refused_move(d, record_of(1, i, LONG[i]), d, record_of(1, i, LONG[i]), SALTORCHARD_TOO_LONG);
    }
}

/* 4 comes before 11, whichever place is first. */
static void two_bad_places(void)
{
    for (size_t d = 0; d < DEVICES; d++)
        for (size_t other = 0; other < DEVICES; other++)
            if (d != other) {
                now("two bad places", DEVICES * d + other);
                refused_move(d, record_of(1, 0, 16778), other, record_of(3, 0, 0), SALTORCHARD_UNKNOWN);
                refused_move(d, record_of(1, 4, DELAYS - 1), other, record_of(2, 5, 0), SALTORCHARD_UNKNOWN);
                refused_move(d, record_of(1, 4, 16778), other, record_of(1, 4, 16778), SALTORCHARD_TOO_LONG);
            }
}

static void null_parts(void)
{
    saltorchard_setting refused = {SALTORCHARD_LENGTH, 0, 0, 0};
    now("NULL", 0);
    answers_at(__LINE__, saltorchard_read_setting(NULL, 0), refused);
    answers_at(__LINE__, saltorchard_store_get(NULL, 0, 0), refused);
    answers_at(__LINE__, saltorchard_store_get(NULL, 0, 32), refused);
    REPLY(saltorchard_write_setting(2, 0, 5, NULL, 0), 1, 0, 0, 0);
    REPLY(saltorchard_write_setting(0, 5, UINT64_MAX, NULL, 0), 1, 0, 0, 0);
    REPLY(saltorchard_store_put(NULL, 0, 0, 2, 0, 5), 1, 0, 0, 0);
    REPLY(saltorchard_store_move(NULL, 0), 1, 0, 0, 0);
}

int main(void)
{
    every_beginning();
    every_version_and_kind();
    lengths();
    by_name();
    gets();
    puts_over_junk();
    puts_of_all();
    puts_in_a_row();
    store_lengths();
    moves();
    one_bad_place();
    two_bad_places();
    null_parts();
    return checked();
}

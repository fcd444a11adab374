/* Files of several keys: reads and writes images of 1 to 16 keys of every kind, reads each key of them, changes comments, adds keys and
 * removes them, and holds replies, places and every byte of the lent buffer to docs/RULES.md. A failed check is a line; the last line
 * counts the checks. */
#include "saltorchard.h"

#include "checks.h"
#include "several.h"

_Static_assert(sizeof(saltorchard_key) == 200 && offsetof(saltorchard_key, algorithm) == 24, "key");
_Static_assert(offsetof(saltorchard_key, blob) == 40 && offsetof(saltorchard_key, comment) == 88, "key's parts");
_Static_assert(offsetof(saltorchard_key, modulus) == 104 && offsetof(saltorchard_key, q) == 184, "key's RSA numbers");

enum { CHECKINT = 0x01020304 };

static bytes image, other;
static rsa_key rsa, another;
static member ring[MOST + 1], edited[MOST + 1];
static table handed;
static char long_comment[LARGEST];

/* ---- what was answered, held to what must be */

static void numbers_at(int line, const char *what, const void *got, const void *want, size_t n)
{
    uint64_t g[40], w[40];
    size_t i = 0;
    memcpy(g, got, n * sizeof *g);
    memcpy(w, want, n * sizeof *w);
    while (i < n && g[i] == w[i])
        i++;
    if (!check_at(line, i == n))
        printf("%s: number %zu is %llu, not %llu\n", what, i, (unsigned long long)g[i], (unsigned long long)w[i]);
}

static void image_at(int line, saltorchard_image got, saltorchard_image want)
{
    numbers_at(line, "read", &got, &want, sizeof got / sizeof(uint64_t));
}

static void key_at(int line, saltorchard_key got, saltorchard_key want)
{
    numbers_at(line, "key", &got, &want, sizeof got / sizeof(uint64_t));
}

static saltorchard_key no_key(uint64_t number, uint64_t count, uint64_t at)
{
    saltorchard_key r = {0};
    r.number = number;
    r.count = count;
    r.at = at;
    return r;
}

/* ---- the calls, on the lent buffer */

static saltorchard_reply write_handed(int derive, uint32_t checkint, size_t room)
{
    return saltorchard_write_keys(handed.numbers, handed.length, handed.text.at, handed.text.length, (uint8_t)derive, checkint, lent,
                                  room);
}

static saltorchard_reply write_ring(const member *members, size_t n, int derive, uint32_t checkint, size_t room)
{
    make_table(&handed, members, n);
    return write_handed(derive, checkint, room);
}

static saltorchard_reply change_of(size_t n, uint64_t k, const void *comment, size_t c, size_t room)
{
    return saltorchard_change_comment_of(lent, room, n, k, comment, c);
}

static saltorchard_reply add(size_t n, const member *m, size_t room)
{
    const rsa_key *r = m->rsa;
    const uint8_t *comment = (const uint8_t *)m->comment;
    if (m->algorithm != SALTORCHARD_RSA)
        return saltorchard_add_key(lent, room, n, (uint8_t)m->algorithm, m->curve.pub, m->curve.pub_len, m->curve.priv,
                                   m->curve.priv_len, comment, m->n);
    return saltorchard_add_rsa(lent, room, n, r->at[RSA_N], r->length[RSA_N], r->at[RSA_E], r->length[RSA_E], r->at[RSA_D],
                               r->length[RSA_D], r->at[RSA_IQMP], r->length[RSA_IQMP], r->at[RSA_P], r->length[RSA_P],
                               r->at[RSA_Q], r->length[RSA_Q], comment, m->n);
}

static saltorchard_reply remove_key(size_t n, uint64_t k, size_t room)
{
    return saltorchard_remove_key(lent, room, n, k);
}

/* ---- rings */

/* So many keys of all kinds in turn, from a given one on; no two are equal. */
static void make_ring(size_t n, int first)
{
    static const char *const TEXTS[] = {"", "oven7", "oven 17, line 3", "mixer", "B\xc3\xa4" "ckerei"};
    for (size_t i = 0; i < n; i++) {
        int algorithm = (int)((size_t)first + i) % 5;
        const char *comment = TEXTS[i % 5];
        if (algorithm == SALTORCHARD_RSA)
            ring[i] = rsa_member(i % 2 ? &rsa : &another, i % 2 ? 1024 : 1031, comment);
        else
            ring[i] = curve_member(algorithm, (uint8_t)(0x71 + 2 * i), comment);
        ring[i].curve.pub[9] = (uint8_t)i;
    }
}

/* Reads an image of these keys whole, in halves, and key by key. */
static void reads_ring(const bytes *image, const member *members, size_t n, uint32_t checkint)
{
    saltorchard_image record = ring_record(members, n, checkint), header = ring_header(members, n);
    image_at(__LINE__, saltorchard_read(image->at, image->length), record);
    image_at(__LINE__, saltorchard_read_header(image->at, image->length), header);
    image_at(__LINE__, saltorchard_read_section(image->at, image->length, header), record);
    header.keys--;
    image_at(__LINE__, saltorchard_read_section(image->at, image->length, header), refusal(1, 0, 0));
    for (size_t k = 1; k <= n; k++)
        key_at(__LINE__, saltorchard_read_key(image->at, image->length, k), key_record(members, n, k));
    const uint64_t MISSING[] = {0, n + 1, 17, n + 256, (uint64_t)1 << 32 | 1, (uint64_t)1 << 63 | 1, UINT64_MAX};
    for (size_t i = 0; i < sizeof MISSING / sizeof *MISSING; i++)
        key_at(__LINE__, saltorchard_read_key(image->at, image->length, MISSING[i]), no_key(1, 0, 0));
}

static void every_number_of_keys(void)
{
    for (size_t n = 1; n <= MOST; n++) {
        for (int first = 0; first < 5; first++) {
            now("keys", 10 * n + (size_t)first);
            make_ring(n, first);
            ring_image(&image, ring, n, CHECKINT);
            lend_junk();
            REPLY(write_ring(ring, n, 0, CHECKINT, image.length - 1), 9, 0, 0, 0);
            REPLY(write_ring(ring, n, 0, CHECKINT, 0), 9, 0, 0, 0);
            KEPT();
            REPLY(write_ring(ring, n, 0, CHECKINT, image.length), 0, 0, 0, image.length);
            HOLDS(&image);
            reads_ring(&image, ring, n, CHECKINT);
            lend_junk();
            REPLY(saltorchard_rewrite(image.at, image.length, lent, LARGEST), 0, 0, 0, image.length);
            HOLDS(&image);
        }
    }
}

/* A derived checkint is the first key's, whatever comes after it. */
static void derived(void)
{
    static const uint32_t FIRST[] = {0xf00faa01, 0x81000056};
    for (size_t i = 0; i < 2; i++) {
        make_ring(3, (int)i * SALTORCHARD_P521);
        key *k = &ring[0].curve;
        memset(k->priv, 0, k->priv_len);
        k->priv[0] = (uint8_t)(FIRST[i] >> 24);
        k->priv[5] = (uint8_t)(FIRST[i] >> 16);
        k->priv[30] = (uint8_t)(FIRST[i] >> 8);
        k->priv[31] = (uint8_t)FIRST[i];
        now("derived", i);
        ring_image(&image, ring, 3, FIRST[i]);
        lend_junk();
        REPLY(write_ring(ring, 3, 1, 7, LARGEST), 0, 0, 0, image.length);
        HOLDS(&image);
        REPLY(write_ring(ring, 3, 255, 7, LARGEST), 0, 0, 0, image.length);
        HOLDS(&image);
    }
}

/* ---- tables that aren't right */

static void table_refused_at(int line, uint64_t number)
{
    reply_at(line, write_handed(0, CHECKINT, LARGEST), number, 0, 0, 0);
    reply_at(line, write_handed(1, CHECKINT, 0), number, 0, 0, 0);
    ground_at(line);
}

#define TABLE_REFUSED(number) table_refused_at(__LINE__, (number))

static void lengths_of_the_table(void)
{
    make_ring(MOST + 1, 0);
    make_table(&handed, ring, MOST + 1);
    lend_junk();
    for (size_t n = 0; n <= ROW * (MOST + 1); n++) {
        now("numbers in the table", n);
        handed.length = n;
        if (n == 0 || n % ROW != 0 || n > ROW * MOST)
            TABLE_REFUSED(1);
    }
}

/* Each part, used or not, that begins or ends outside of the text. */
static void parts_outside(void)
{
    for (size_t at = 1; at < 3 * ROW; at += at % ROW == ROW - 2 ? 3 : 2) {
        make_ring(3, SALTORCHARD_P521);
        make_table(&handed, ring, 3);
        uint64_t end = handed.text.length, length = handed.numbers[at + 1];
        const uint64_t PLACES[][2] = {{end, 1}, {end + 1, 0}, {0, end + 1}, {UINT64_MAX, 1}, {1, UINT64_MAX},
                                      {UINT64_MAX, UINT64_MAX}, {(uint64_t)1 << 63, (uint64_t)1 << 63},
                                      {(uint64_t)1 << 32, length}};
        lend_junk();
        for (size_t i = 0; i < sizeof PLACES / sizeof *PLACES; i++) {
            now("part outside at number", 100 * at + i);
            memcpy(handed.numbers + at, PLACES[i], sizeof PLACES[i]);
            TABLE_REFUSED(1);
            handed.numbers[0] = 9;
            TABLE_REFUSED(1);
            handed.numbers[0] = SALTORCHARD_P521;
        }
    }
}

/* Parts that a kind doesn't use may be anywhere within the text, used ones over each other. */
static void parts_anywhere(void)
{
    now("parts anywhere", 0);
    make_ring(2, SALTORCHARD_ED25519);
    ring[1] = curve_member(SALTORCHARD_ED25519, 1, "oven7");
    memcpy(ring[1].curve.priv, ring[0].curve.pub, 32);
    make_table(&handed, ring, 2);
    uint64_t end = handed.text.length;
    for (size_t at = 7; at < ROW; at += 2) {
        handed.numbers[at] = at;
        handed.numbers[at + 1] = end - at;
        handed.numbers[ROW + at] = end;
    }
    handed.numbers[ROW + 3] = handed.numbers[1];
    ring_image(&image, ring, 2, 7);
    lend_junk();
    REPLY(write_handed(0, 7, LARGEST), 0, 0, 0, image.length);
    HOLDS(&image);
}

/* A code that names nothing, of whichever key, comes before what is wrong with any key. */
static void codes(void)
{
    for (size_t k = 0; k < 3; k++) {
        make_ring(3, 0);
        ring[0].curve.pub_len = 31;
        make_table(&handed, ring, 3);
        lend_junk();
        for (uint64_t code = 5; code < 300; code++) {
            now("code", (size_t)code);
            handed.numbers[ROW * k] = code;
            TABLE_REFUSED(4);
        }
        handed.numbers[ROW * k] = (uint64_t)1 << 32 | (uint64_t)ring[k].algorithm;
        TABLE_REFUSED(4);
        handed.numbers[ROW * k] = (uint64_t)ring[k].algorithm;
        TABLE_REFUSED(1);
    }
}

/* Each key's own refusals, in key order. */
static void own_refusals(void)
{
    for (size_t k = 0; k < 3; k++) {
        now("own refusals at key", k + 1);
        make_ring(3, SALTORCHARD_P256);
        lend_junk();
        ring[k].n = 1;
        ring[k].comment = "\xff";
        REPLY(write_ring(ring, 3, 0, 0, 0), 7, 0, 0, 0);
        ring[k].curve.pub[0] = 5;
        REPLY(write_ring(ring, 3, 0, 0, 0), 2, 0, 0, 0);
        ring[k].curve.priv_len--;
        REPLY(write_ring(ring, 3, 0, 0, 0), 1, 0, 0, 0);
        make_ring(3, SALTORCHARD_P256);
        memset(ring[k].curve.priv, 0, sizeof ring[k].curve.priv);
        REPLY(write_ring(ring, 3, 0, 0, 0), 2, 0, 0, 0);
        rsa_key wrong = rsa;
        ring[k] = rsa_member(&wrong, 1024, "\xff");
        REPLY(write_ring(ring, 3, 0, 0, 0), 7, 0, 0, 0);
        wrong.length[RSA_N]--;
        REPLY(write_ring(ring, 3, 0, 0, 0), 1, 0, 0, 0);
        wrong.at[RSA_Q][0] = 0x80;
        REPLY(write_ring(ring, 3, 0, 0, 0), 2, 0, 0, 0);
        KEPT();
    }
    now("the first of two", 0);
    make_ring(3, SALTORCHARD_P256);
    ring[1].n = 1;
    ring[1].comment = "\xff";
    ring[2].curve.priv_len = 0;
    REPLY(write_ring(ring, 3, 0, 0, LARGEST), 7, 0, 0, 0);
    ring[0].curve.pub[0] = 5;
    REPLY(write_ring(ring, 3, 0, 0, LARGEST), 2, 0, 0, 0);
    KEPT();
}

static void write_limit(void)
{
    make_ring(3, SALTORCHARD_ED25519);
    ring_image(&image, ring, 3, 7);
    for (size_t k = 0; k < 3; k++) {
        now("limit by the comment of key", k + 1);
        make_ring(3, SALTORCHARD_ED25519);
        ring[k].comment = long_comment;
        ring[k].n += SALTORCHARD_LIMIT - image.length - 16;
        ring_image(&other, ring, 3, 7);
        while (other.length <= SALTORCHARD_LIMIT) {
            ring[k].n++;
            ring_image(&other, ring, 3, 7);
        }
        lend_junk();
        REPLY(write_ring(ring, 3, 0, 7, 10), 11, 0, 0, 0);
        REPLY(write_ring(ring, 3, 0, 7, LARGEST), 11, 0, 0, 0);
        KEPT();
        image_at(__LINE__, saltorchard_read(other.at, other.length), refusal(11, 0, 0));
        key_at(__LINE__, saltorchard_read_key(other.at, other.length, 9), no_key(11, 0, 0));
        ring[k].n--;
        ring_image(&other, ring, 3, 7);
        REPLY(write_ring(ring, 3, 0, 7, other.length), 0, 0, 0, other.length);
        HOLDS(&other);
        reads_ring(&other, ring, 3, 7);
    }
}

/* ---- the reader's refusals */

/* An image that every read refuses so, and the edits, before their own refusals. */
static void refused_at(int line, const bytes *image, uint64_t number, uint64_t count, uint64_t at)
{
    member m = curve_member(SALTORCHARD_P256, 1, "\xff");
    image_at(line, saltorchard_read(image->at, image->length), refusal(number, count, at));
    for (uint64_t k = 0; k < 4; k++)
        key_at(line, saltorchard_read_key(image->at, image->length, k), no_key(number, count, at));
    lend_image(image);
    reply_at(line, change_of(image->length, 0, "\xff", 1, image->length), number, count, at, 0);
    reply_at(line, add(image->length, &m, image->length), number, count, at, 0);
    reply_at(line, remove_key(image->length, 0, image->length), number, count, at, 0);
    ground_at(line);
}

#define REFUSED(image, number, count, at) refused_at(__LINE__, (image), (number), (count), (at))

static void counts(void)
{
    static const uint32_t COUNTS[] = {0, 17, 18, 256, 257, UINT32_MAX};
    for (size_t i = 0; i < sizeof COUNTS / sizeof *COUNTS; i++) {
        now("key count", COUNTS[i]);
        make_ring(MOST + 1, 0);
        image_of_members(&image, COUNTS[i], ring, 3, ring, 3, 7);
        REFUSED(&image, 1, 0, 35);
        image_at(__LINE__, saltorchard_read_header(image.at, image.length), refusal(1, 0, 35));
    }
    now("17 keys", 17);
    ring_image(&image, ring, MOST + 1, 7);
    REFUSED(&image, 1, 0, 35);
    REPLY(write_ring(ring, MOST + 1, 0, 7, LARGEST), 1, 0, 0, 0);
    KEPT();
}

/* With a cipher there is one key. */
static void counts_with_a_cipher(void)
{
    static sealed seal;
    key k = make_key(SALTORCHARD_ED25519, 1);
    make_sealed(&seal, SALTORCHARD_AES256_CTR, SALTORCHARD_KDF_NONE, &k, 1);
    encrypted_image(&image, &seal);
    now("encrypted", 1);
    saltorchard_image record = saltorchard_read(image.at, image.length);
    saltorchard_key found = saltorchard_read_key(image.at, image.length, 1), right = {0};
    CHECK(record.number == 0 && record.keys == 1);
    right.blob = record.blob;
    right.point = record.point;
    key_at(__LINE__, found, right);
    key_at(__LINE__, saltorchard_read_key(image.at, image.length, 2), no_key(1, 0, 0));
    member m = curve_member(SALTORCHARD_P256, 1, "\xff");
    lend_image(&image);
    REPLY(change_of(image.length, 9, "\xff", 1, image.length), 8, 0, 0, 0);
    REPLY(add(image.length, &m, image.length), 8, 0, 0, 0);
    REPLY(remove_key(image.length, 1, image.length), 8, 0, 0, 0);
    KEPT();
    size_t count = (size_t)record.blob.start - 8;
    for (int n = 0; n < 20; n++) {
        now("key count with a cipher", (size_t)n);
        image.at[count + 3] = (uint8_t)n;
        if (n != 1)
            REFUSED(&image, 1, 0, count);
    }
}

/* Fewer or more blobs than the count says, and than the section has keypairs. */
static void other_numbers(void)
{
    make_ring(3, SALTORCHARD_ED25519);
    now("a blob too few", 1);
    image_of_members(&image, 2, ring, 1, ring, 2, 7); /* the checkint is a name's length there */
    REFUSED(&image, 4, 0, section_at(ring, 1) + 4);
    image_of_members(&image, 2, ring, 1, ring, 2, CHECKINT);
    REFUSED(&image, 1, 0, section_at(ring, 1) + 4);
    now("a keypair too few", 1);
    image_of_members(&image, 3, ring, 3, ring, 2, 7);
    REFUSED(&image, 1, 0, pair_at(ring, 3, 3));
    now("a keypair too many", 1);
    image_of_members(&image, 2, ring, 2, ring, 3, 7);
    REFUSED(&image, 1, 0, pair_at(ring, 2, 3));
}

/* Keypairs in another order than the blobs, and fields that are wrong at the second key. */
static void wrong_second_key(void)
{
    make_ring(3, SALTORCHARD_ED25519);
    now("swapped", 2);
    memcpy(edited, ring, sizeof ring);
    edited[1] = ring[2];
    edited[2] = ring[1];
    image_of_members(&image, 3, ring, 3, edited, 3, 7);
    REFUSED(&image, 5, 0, pair_at(ring, 3, 2));
    now("swapped and a comment that isn't UTF-8", 2);
    edited[1].comment = "\xff";
    edited[1].n = 1;
    image_of_members(&image, 3, ring, 3, edited, 3, 7);
    REFUSED(&image, 5, 0, pair_at(ring, 3, 2));
    for (size_t k = 1; k <= 3; k++) {
        now("not UTF-8 at key", k);
        make_ring(3, SALTORCHARD_ED25519);
        ring[k - 1].comment = "\xc3(";
        ring[k - 1].n = 2;
        ring_image(&image, ring, 3, 7);
        REFUSED(&image, 7, 0, comment_at(ring, 3, k));
    }
    for (size_t k = 1; k <= 3; k++) {
        now("a byte of the name, at key", k);
        make_ring(3, SALTORCHARD_P256);
        ring_image(&image, ring, 3, 7);
        image.at[pair_at(ring, 3, k) + 4] = 'S';
        REFUSED(&image, 4, 0, pair_at(ring, 3, k));
        ring_image(&image, ring, 3, 7);
        image.at[section_at(ring, k - 1) + 4 + 4] = 'S';
        REFUSED(&image, 4, 0, section_at(ring, k - 1) + 4);
    }
    now("padding", 0);
    make_ring(2, SALTORCHARD_P256);
    ring_image(&image, ring, 2, 7);
    size_t padding = (size_t)ring_record(ring, 2, 7).padding;
    CHECK(padding > 0);
    image.at[image.length - 1] = 0;
    REFUSED(&image, 2, 0, image.length - padding);
}

/* An image cut anywhere, and with bytes too many. */
static void cut_or_longer(void)
{
    make_ring(3, SALTORCHARD_ED25519);
    ring_image(&image, ring, 3, 7);
    saltorchard_image header = ring_header(ring, 3);
    for (size_t n = 0; n < image.length; n++) {
        now("cut to", n);
        saltorchard_image read = saltorchard_read(image.at, n);
        CHECK(read.number == 1 && read.count == 0 && read.kind == 0 && read.at <= n);
        image_at(__LINE__, saltorchard_read_header(image.at, n), n < header.section ? read : header);
        image_at(__LINE__, saltorchard_read_section(image.at, n, header), n < header.section ? refusal(1, 0, 0) : read);
        key_at(__LINE__, saltorchard_read_key(image.at, n, 2), no_key(1, 0, read.at));
    }
    size_t end = image.length;
    put(&image, "abc", 3);
    now("longer", 3);
    REFUSED(&image, 6, 3, end);
}

/* A scalar that isn't in the form, at each key: the image isn't, rewriting makes it so, and no edit takes it. */
static void out_of_form(void)
{
    for (size_t k = 1; k <= 3; k++) {
        now("out of the form at key", k);
        for (size_t i = 0; i < 3; i++)
            ring[i] = curve_member(SALTORCHARD_P256, 0x7f, "oven7");
        ring_image(&image, ring, 3, 7);
        size_t scalar = (size_t)key_record(ring, 3, k).scalar.start;
        image.at[scalar] = 0x80; /* it needs a zero now */
        ring[k - 1].curve.priv[0] = 0x80;
        saltorchard_image read = saltorchard_read(image.at, image.length);
        CHECK(read.number == 0 && read.form == 0 && read.keys == 3);
        CHECK(saltorchard_read_key(image.at, image.length, k).scalar.start == scalar);
        ring_image(&other, ring, 3, 7);
        lend_junk();
        REPLY(saltorchard_rewrite(image.at, image.length, lent, LARGEST), 0, 0, 0, other.length);
        HOLDS(&other);
        member m = curve_member(SALTORCHARD_P256, 1, "\xff");
        lend_image(&image);
        REPLY(change_of(image.length, 0, "\xff", 1, image.length), 10, 0, 0, 0);
        REPLY(add(image.length, &m, image.length), 10, 0, 0, 0);
        REPLY(remove_key(image.length, 9, image.length), 10, 0, 0, 0);
        KEPT();
    }
}

/* ---- the edits */

/* An edit of an image of n bytes was accepted: the buffer has that of the `count` edited keys, zeros up to the old end, and all else as it
 * was. Answers the new length. */
static size_t accepted_at(int line, saltorchard_reply reply, size_t n, size_t count)
{
    ring_image(&image, edited, count, CHECKINT);
    reply_at(line, reply, 0, 0, 0, image.length);
    if (image.length < n)
        memset(want + GUARD + image.length, 0, n - image.length);
    holds_at(line, &image);
    return image.length;
}

#define ACCEPTED(reply, n, count) accepted_at(__LINE__, (reply), (n), (count))

/* Lends the image of the ring, which is then to be edited. Answers its length. */
static size_t lend_ring(size_t n)
{
    ring_image(&image, ring, n, CHECKINT);
    lend_image(&image);
    memcpy(edited, ring, sizeof ring);
    return image.length;
}

static void comments_of_keys(void)
{
    static const char *const TEXTS[] = {"", "o", "oven7", "oven 7, line 2", "a comment that is longer than each of those before it"};
    for (size_t count = 1; count <= MOST; count += count < 3 ? 1 : 13) {
        for (size_t k = 1; k <= count; k++) {
            make_ring(count, SALTORCHARD_P256);
            size_t n = lend_ring(count), old = comment_at(ring, count, k);
            REPLY(change_of(n, k, "\xff", 1, LARGEST), 7, 0, old, 0);
            REPLY(change_of(n, count + 1, "\xff", 1, LARGEST), 1, 0, 0, 0);
            REPLY(change_of(n, 0, long_comment, LARGEST - 1, LARGEST), 1, 0, 0, 0);
            REPLY(change_of(n, (uint64_t)1 << 32 | k, "", 0, LARGEST), 1, 0, 0, 0);
            REPLY(change_of(n, k, long_comment, LARGEST - 1, LARGEST), 11, 0, 0, 0);
            KEPT();
            for (size_t i = 0; i < sizeof TEXTS / sizeof *TEXTS; i++) {
                now("comment of key", 100 * k + i);
                edited[k - 1].comment = TEXTS[i];
                edited[k - 1].n = strlen(TEXTS[i]);
                ring_image(&image, edited, count, CHECKINT);
                if (image.length > n)
                    REPLY(change_of(n, k, TEXTS[i], strlen(TEXTS[i]), image.length - 1), 9, 0, 0, 0);
                KEPT();
                n = ACCEPTED(change_of(n, k, TEXTS[i], strlen(TEXTS[i]), image.length > n ? image.length : n), n, count);
            }
        }
    }
}

/* Without a number it is the first key's. */
static void comment_of_the_first(void)
{
    for (size_t count = 1; count <= 3; count++) {
        now("comment of the first of", count);
        make_ring(count, SALTORCHARD_ED25519);
        size_t n = lend_ring(count);
        REPLY(saltorchard_change_comment(lent, LARGEST, n, (const uint8_t *)"\xff", 1), 7, 0, comment_at(ring, count, 1), 0);
        KEPT();
        edited[0].comment = "oven 9";
        edited[0].n = 6;
        n = ACCEPTED(saltorchard_change_comment(lent, LARGEST, n, (const uint8_t *)"oven 9", 6), n, count);
    }
}

/* From one key to sixteen; then no more. */
static void keys_added(void)
{
    for (int first = 0; first < 5; first++) {
        make_ring(MOST + 1, first);
        size_t n = lend_ring(1);
        for (size_t count = 2; count <= MOST; count++) {
            now("added up to", count);
            ring_image(&image, ring, count, CHECKINT);
            REPLY(add(n, ring + count - 1, image.length - 1), 9, 0, 0, 0);
            KEPT();
            n = ACCEPTED(add(n, ring + count - 1, image.length), n, count);
        }
        now("added", MOST + 1);
        member wrong = ring[MOST];
        wrong.comment = "\xff";
        REPLY(add(n, ring + MOST, LARGEST), 1, 0, 0, 0);
        REPLY(add(n, &wrong, LARGEST), 1, 0, 0, 0);
        KEPT();
        reads_ring(&image, ring, MOST, CHECKINT);
        memmove(edited + 1, ring + 2, (MOST - 2) * sizeof *ring);
        n = ACCEPTED(remove_key(n, 2, n), n, MOST - 1);
        edited[MOST - 1] = ring[MOST];
        n = ACCEPTED(add(n, ring + MOST, LARGEST), n, MOST);
    }
}

/* What is wrong with a key that is added: as the writer says it, at 0. */
static void wrong_keys_added(void)
{
    make_ring(2, SALTORCHARD_ED25519);
    size_t n = lend_ring(2);
    member m = curve_member(SALTORCHARD_P384, 0x7f, "\xff");
    rsa_key r = rsa;
    now("wrong key added", 0);
    REPLY(add(n, &m, 0), 1, 0, 0, 0); /* longer than the buffer */
    REPLY(add(n, &m, n), 7, 0, 0, 0);
    m.curve.pub[0] = 2;
    REPLY(add(n, &m, n), 2, 0, 0, 0);
    m.curve.pub_len--;
    REPLY(add(n, &m, n), 1, 0, 0, 0);
    m = rsa_member(&r, 1024, "\xff");
    REPLY(add(n, &m, n), 7, 0, 0, 0);
    r.length[RSA_N]--;
    REPLY(add(n, &m, n), 1, 0, 0, 0);
    r.length[RSA_D] = 0;
    REPLY(add(n, &m, n), 2, 0, 0, 0);
    m = curve_member(SALTORCHARD_P384, 0x7f, "oven7");
    m.comment = long_comment;
    m.n = SALTORCHARD_LIMIT;
    REPLY(add(n, &m, n), 11, 0, 0, 0);
    m.n = 9;
    REPLY(add(n, &m, n), 9, 0, 0, 0);
    for (int code = SALTORCHARD_RSA; code < 256; code++) {
        now("code added", (size_t)code);
        const uint8_t *none = NULL;
        REPLY(saltorchard_add_key(lent, n, n, (uint8_t)code, none, 0, none, 0, (const uint8_t *)"\xff", 1), 4, 0, 0, 0);
        REPLY(saltorchard_add_key(lent, n, SIZE_MAX, (uint8_t)code, none, 0, none, 0, none, 0), 4, 0, 0, 0);
    }
    KEPT();
}

static void keys_removed(void)
{
    for (size_t count = 2; count <= MOST; count++) {
        for (size_t k = 1; k <= count; k++) {
            now("removed", 100 * count + k);
            make_ring(count, (int)(count + k) % 5);
            size_t n = lend_ring(count);
            REPLY(remove_key(n, 0, n), 1, 0, 0, 0);
            REPLY(remove_key(n, count + 1, n), 1, 0, 0, 0);
            REPLY(remove_key(n, (uint64_t)1 << 32 | k, n), 1, 0, 0, 0);
            REPLY(remove_key(n, UINT64_MAX, n), 1, 0, 0, 0);
            KEPT();
            memmove(edited + k - 1, ring + k, (count - k) * sizeof *ring);
            n = ACCEPTED(remove_key(n, k, k % 2 ? n : LARGEST), n, count - 1);
            reads_ring(&image, edited, count - 1, CHECKINT);
        }
    }
    now("only key removed", 1);
    make_ring(1, SALTORCHARD_P521);
    size_t n = lend_ring(1);
    REPLY(remove_key(n, 1, n), 1, 0, 0, 0);
    REPLY(remove_key(n, 2, n), 1, 0, 0, 0);
    KEPT();
}

/* Edits and refused ones on one buffer that has just the room for three keys: what a removal frees serves an addition. */
static void sequence(void)
{
    make_ring(3, SALTORCHARD_ED25519);
    size_t n = lend_ring(3), room = n;
    now("sequence", 1);
    REPLY(add(n, ring, room), 9, 0, 0, 0);
    memmove(edited, ring + 1, 2 * sizeof *ring);
    n = ACCEPTED(remove_key(n, 1, room), n, 2);
    REPLY(remove_key(n, 3, room), 1, 0, 0, 0);
    KEPT();
    now("sequence", 2);
    edited[2] = ring[0];
    n = ACCEPTED(add(n, ring, room), n, 3);
    CHECK(n <= room);
    now("sequence", 3);
    edited[1].comment = "";
    edited[1].n = 0;
    n = ACCEPTED(change_of(n, 2, "", 0, room), n, 3);
    REPLY(change_of(n, 2, "\xff", 1, room), 7, 0, comment_at(edited, 3, 2), 0);
    REPLY(change_of(n, 1, long_comment, 2000, room), 9, 0, 0, 0);
    KEPT();
    now("sequence", 4);
    n = ACCEPTED(remove_key(n, 3, room), n, 2);
    n = ACCEPTED(remove_key(n, 2, room), n, 1);
    REPLY(remove_key(n, 1, room), 1, 0, 0, 0);
    KEPT();
    reads_ring(&image, edited, 1, CHECKINT);
}

/* The image's length in the buffer comes first, then the image. */
static void lengths_in_the_buffer(void)
{
    member m = curve_member(SALTORCHARD_P256, 1, "\xff");
    make_ring(2, SALTORCHARD_ED25519);
    size_t n = lend_ring(2);
    const size_t LENGTHS[] = {65536, SIZE_MAX, 65535, n + 1, 0, 14};
    for (size_t i = 0; i < sizeof LENGTHS / sizeof *LENGTHS; i++) {
        uint64_t number = i < 2 ? 11 : 1;
        now("image's length in the buffer", LENGTHS[i]);
        REPLY(change_of(LENGTHS[i], 9, "\xff", 1, n), number, 0, 0, 0);
        REPLY(add(LENGTHS[i], &m, n), number, 0, 0, 0);
        REPLY(remove_key(LENGTHS[i], 9, n), number, 0, 0, 0);
    }
    KEPT();
}

static void null_parts(void)
{
    now("NULL", 0);
    key_at(__LINE__, saltorchard_read_key(NULL, 0, 1), no_key(1, 0, 0));
    REPLY(saltorchard_write_keys(NULL, 0, NULL, 0, 0, 0, NULL, 0), 1, 0, 0, 0);
    REPLY(saltorchard_change_comment_of(NULL, 0, 0, 1, NULL, 0), 1, 0, 0, 0);
    REPLY(saltorchard_add_key(NULL, 0, 0, 0, NULL, 0, NULL, 0, NULL, 0), 1, 0, 0, 0);
    REPLY(saltorchard_add_rsa(NULL, 0, 0, NULL, 0, NULL, 0, NULL, 0, NULL, 0, NULL, 0, NULL, 0, NULL, 0), 1, 0, 0, 0);
    REPLY(saltorchard_remove_key(NULL, 0, 0, 1), 1, 0, 0, 0);
    const uint64_t zeros[ROW] = {0};
    REPLY(saltorchard_write_keys(zeros, ROW, NULL, 0, 0, 0, NULL, 0), 1, 0, 0, 0);
    make_ring(2, SALTORCHARD_ED25519);
    size_t n = lend_ring(2);
    edited[1].comment = "";
    edited[1].n = 0;
    n = ACCEPTED(change_of(n, 2, NULL, 0, n), n, 2);
    edited[2] = curve_member(SALTORCHARD_ED25519, 3, "");
    key *k = &edited[2].curve;
    ACCEPTED(saltorchard_add_key(lent, LARGEST, n, 0, k->pub, 32, k->priv, 32, NULL, 0), n, 3);
}

int main(void)
{
    memset(long_comment, 'c', sizeof long_comment - 1);
    make_rsa(&rsa, 1024);
    make_rsa(&another, 1031);
    every_number_of_keys();
    derived();
    lengths_of_the_table();
    parts_outside();
    parts_anywhere();
    codes();
    own_refusals();
    write_limit();
    counts();
    counts_with_a_cipher();
    other_numbers();
    wrong_second_key();
    cut_or_longer();
    out_of_form();
    comments_of_keys();
    comment_of_the_first();
    keys_added();
    wrong_keys_added();
    keys_removed();
    sequence();
    lengths_in_the_buffer();
    null_parts();
    return checked();
}

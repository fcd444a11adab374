/* Images for test.c and test_several.c, put together by hand from docs/RULES.md, and where their fields must be. Nothing here calls
 * the library. */
#ifndef IMAGES_H
#define IMAGES_H

#include "checks.h"
#include "saltorchard.h"

#include <string.h>

#if defined(__GNUC__)
#pragma GCC diagnostic ignored "-Wunused-function" /* each test takes what it needs */
#endif

enum { LARGEST = 70000 };

typedef struct {
    uint8_t at[LARGEST];
    size_t length;
} bytes;

/* An Ed25519 or ECDSA key. */
typedef struct {
    int algorithm;
    uint8_t pub[133], priv[66];
    size_t pub_len, priv_len;
} key;

/* The numbers of an RSA key, in the order of a section. */
enum { RSA_N, RSA_E, RSA_D, RSA_IQMP, RSA_P, RSA_Q, RSA_NUMBERS };

typedef struct {
    uint8_t at[RSA_NUMBERS][1100];
    size_t length[RSA_NUMBERS];
} rsa_key;

static const char *const ALGORITHMS[5] = {"ssh-ed25519", "ecdsa-sha2-nistp256", "ecdsa-sha2-nistp384", "ecdsa-sha2-nistp521", "ssh-rsa"};
static const char *const CURVES[4] = {"", "nistp256", "nistp384", "nistp521"};
static const size_t SIZES[4] = {32, 32, 48, 66};
static const char *const KDFS[2] = {"none", "bcrypt"};
static const struct {
    const char *name;
    size_t block, tag;
} CIPHERS[10] = {
    {"none", 8, 0},        {"3des-cbc", 8, 0},    {"aes128-cbc", 16, 0}, {"aes192-cbc", 16, 0},
    {"aes256-cbc", 16, 0}, {"aes128-ctr", 16, 0}, {"aes192-ctr", 16, 0}, {"aes256-ctr", 16, 0},
    {"aes128-gcm@openssh.com", 16, 16},           {"aes256-gcm@openssh.com", 16, 16},
};

/* ---- bytes */

static void put(bytes *to, const void *from, size_t n)
{
    if (n > 0)
        memcpy(to->at + to->length, from, n);
    to->length += n;
}

static void put_uint32(bytes *to, uint64_t number)
{
    uint8_t four[4] = {(uint8_t)(number >> 24), (uint8_t)(number >> 16), (uint8_t)(number >> 8), (uint8_t)number};
    put(to, four, 4);
}

static void put_string(bytes *to, const void *from, size_t n)
{
    put_uint32(to, n);
    put(to, from, n);
}

static void put_name(bytes *to, const char *name)
{
    put_string(to, name, strlen(name));
}

static void put_padding(bytes *to, size_t n)
{
    for (size_t i = 1; i <= n; i++)
        to->at[to->length++] = (uint8_t)i;
}

/* ---- keys */

/* Made-up key bytes, the first private one given. */
static key make_key(int algorithm, uint8_t first)
{
    key k = {0};
    k.algorithm = algorithm;
    k.priv_len = SIZES[algorithm];
    k.pub_len = algorithm == SALTORCHARD_ED25519 ? 32 : 1 + 2 * k.priv_len;
    for (size_t i = 0; i < k.pub_len; i++)
        k.pub[i] = (uint8_t)(0x40 + 7 * i);
    for (size_t i = 0; i < k.priv_len; i++)
        k.priv[i] = (uint8_t)(0x90 + 5 * i);
    if (algorithm != SALTORCHARD_ED25519)
        k.pub[0] = 4;
    k.priv[0] = first;
    return k;
}

/* Name and public fields, as they stand in the blob and again in the section. */
static void put_public(bytes *to, const key *k)
{
    put_name(to, ALGORITHMS[k->algorithm]);
    if (k->algorithm != SALTORCHARD_ED25519)
        put_name(to, CURVES[k->algorithm]);
    put_string(to, k->pub, k->pub_len);
}

/* How many zeros a scalar begins with; those of a seed don't count. */
static size_t leading_zeros(const key *k)
{
    size_t zeros = 0;
    while (k->algorithm != SALTORCHARD_ED25519 && zeros < k->priv_len && k->priv[zeros] == 0)
        zeros++;
    return zeros;
}

/* How many zeros the writer puts before a scalar that it has taken all its zeros from. */
static size_t needed_zeros(const key *k)
{
    return k->algorithm != SALTORCHARD_ED25519 && k->priv[leading_zeros(k)] >= 0x80;
}

/* A scalar's private string: that many zeros, then the scalar without its own. */
static void put_scalar(bytes *to, const key *k, size_t zeros)
{
    size_t own = leading_zeros(k);
    memset(to->at + to->length, 0, zeros);
    to->length += zeros;
    put(to, k->priv + own, k->priv_len - own);
}

/* The private string's contents by the writer's rule. */
static void put_private(bytes *to, const key *k)
{
    put_scalar(to, k, needed_zeros(k));
    if (k->algorithm == SALTORCHARD_ED25519)
        put(to, k->pub, k->pub_len);
}

/* A made-up number of that many bits, as an mpint. */
static void make_number(rsa_key *k, int which, size_t bits)
{
    uint8_t *at = k->at[which];
    k->length[which] = bits / 8 + 1;
    for (size_t i = 0; i < k->length[which]; i++)
        at[i] = (uint8_t)(0x51 + 11 * i + 3 * (size_t)which);
    at[0] = (uint8_t)((1 << bits % 8) / 2);
    if (bits % 8 == 0)
        at[1] |= 0x80;
}

/* Made-up numbers with the sizes that those of a key of that many bits have. */
static void make_rsa(rsa_key *k, size_t bits)
{
    make_number(k, RSA_N, bits);
    make_number(k, RSA_E, 17);
    make_number(k, RSA_D, bits - 1);
    make_number(k, RSA_IQMP, bits / 2 - 3);
    make_number(k, RSA_P, bits / 2);
    make_number(k, RSA_Q, bits / 2);
}

static void put_number(bytes *to, const rsa_key *k, int which)
{
    put_string(to, k->at[which], k->length[which]);
}

static void put_rsa_blob(bytes *to, const rsa_key *k)
{
    put_name(to, ALGORITHMS[SALTORCHARD_RSA]);
    put_number(to, k, RSA_E);
    put_number(to, k, RSA_N);
}

static void put_rsa_pair(bytes *to, const rsa_key *k)
{
    put_name(to, ALGORITHMS[SALTORCHARD_RSA]);
    for (int which = 0; which < RSA_NUMBERS; which++)
        put_number(to, k, which);
}

/* ---- images */

/* Up to the blob's end: `cipher` and `kdf` are codes, `options` and `blob` the strings' contents. */
static void put_header(bytes *to, int cipher, int kdf, const bytes *options, const bytes *blob)
{
    to->length = 0;
    put(to, "openssh-key-v1", 15);
    put_name(to, CIPHERS[cipher].name);
    put_name(to, KDFS[kdf]);
    put_string(to, options->at, options->length);
    put_uint32(to, 1);
    put_string(to, blob->at, blob->length);
}

/* The section's string: its length once its parts, without padding, are there. */
static void put_section(bytes *to, bytes *section)
{
    put_padding(section, (8 - section->length % 8) % 8);
    put_string(to, section->at, section->length);
}

/* A plain image with this blob and these fields of a keypair, whatever they are. */
static void image_of_pair(bytes *to, const bytes *blob, const bytes *pair, uint32_t checkint, const void *comment, size_t n)
{
    static bytes options, section;
    options.length = section.length = 0;
    put_uint32(&section, checkint);
    put_uint32(&section, checkint);
    put(&section, pair->at, pair->length);
    put_string(&section, comment, n);
    put_header(to, SALTORCHARD_CIPHER_NONE, SALTORCHARD_KDF_NONE, &options, blob);
    put_section(to, &section);
}

/* A plain image whose private string has the given contents, whatever they are. */
static void plain_image_of(bytes *to, const key *k, const bytes *private_string, uint32_t checkint, const void *comment, size_t n)
{
    static bytes blob, pair;
    blob.length = pair.length = 0;
    put_public(&blob, k);
    put_public(&pair, k);
    put_string(&pair, private_string->at, private_string->length);
    image_of_pair(to, &blob, &pair, checkint, comment, n);
}

static void plain_image(bytes *to, const key *k, uint32_t checkint, const void *comment, size_t n)
{
    static bytes private_string;
    private_string.length = 0;
    put_private(&private_string, k);
    plain_image_of(to, k, &private_string, checkint, comment, n);
}

/* A plain image with one RSA key in the blob and one in the section. */
static void rsa_image_of(bytes *to, const rsa_key *header, const rsa_key *section, uint32_t checkint, const void *comment, size_t n)
{
    static bytes blob, pair;
    blob.length = pair.length = 0;
    put_rsa_blob(&blob, header);
    put_rsa_pair(&pair, section);
    image_of_pair(to, &blob, &pair, checkint, comment, n);
}

static void rsa_image(bytes *to, const rsa_key *k, uint32_t checkint, const void *comment, size_t n)
{
    rsa_image_of(to, k, k, checkint, comment, n);
}

/* What an encrypted image is made of. */
typedef struct {
    int cipher, kdf;
    uint32_t rounds;
    bytes salt, blob, ciphertext, tag;
} sealed;

/* Made-up parts: `blocks` blocks of ciphertext, and a salt of 16 bytes and 24 rounds where the KDF is bcrypt. */
static void make_sealed(sealed *s, int cipher, int kdf, const key *k, size_t blocks)
{
    s->cipher = cipher;
    s->kdf = kdf;
    s->rounds = kdf == SALTORCHARD_BCRYPT ? 24 : 0;
    s->salt.length = kdf == SALTORCHARD_BCRYPT ? 16 : 0;
    s->blob.length = 0;
    put_public(&s->blob, k);
    s->ciphertext.length = blocks * CIPHERS[cipher].block;
    s->tag.length = CIPHERS[cipher].tag;
    memset(s->salt.at, 0xa5, s->salt.length);
    memset(s->ciphertext.at, 0xc7, s->ciphertext.length);
    memset(s->tag.at, 0x7a, s->tag.length);
}

/* The same parts with another public key. */
static void seal_rsa(sealed *s, const rsa_key *k)
{
    s->blob.length = 0;
    put_rsa_blob(&s->blob, k);
}

static void encrypted_image(bytes *to, const sealed *s)
{
    static bytes options;
    options.length = 0;
    if (s->kdf == SALTORCHARD_BCRYPT) {
        put_string(&options, s->salt.at, s->salt.length);
        put_uint32(&options, s->rounds);
    }
    put_header(to, s->cipher, s->kdf, &options, &s->blob);
    put_string(to, s->ciphertext.at, s->ciphertext.length);
    put(to, s->tag.at, s->tag.length);
}

/* ---- what a read must answer */

static saltorchard_part part(size_t start, size_t length)
{
    saltorchard_part p = {start, length};
    return p;
}

static saltorchard_image refusal(uint64_t number, uint64_t count, uint64_t at)
{
    saltorchard_image r = {0};
    r.number = number;
    r.count = count;
    r.at = at;
    return r;
}

/* Of a plain image in which that many zeros stand before the scalar. */
static saltorchard_image plain_record(const key *k, size_t zeros, uint32_t checkint, size_t comment, int form)
{
    int ed25519 = k->algorithm == SALTORCHARD_ED25519;
    size_t before_point = ed25519 ? 4 + 11 + 4 : 4 + 19 + 4 + 8 + 4;
    size_t blob = before_point + k->pub_len, section = 43 + blob + 4;
    size_t scalar = section + 8 + blob + 4 + zeros, length = k->priv_len - leading_zeros(k);
    size_t comment_at = scalar + length + (ed25519 ? 32 : 0) + 4;
    saltorchard_image r = {0};
    r.kind = SALTORCHARD_PLAIN;
    r.algorithm = (uint64_t)k->algorithm;
    r.checkint = checkint;
    r.padding = (8 - (comment_at + comment - section) % 8) % 8;
    r.form = (uint64_t)form;
    r.blob = part(43, blob);
    r.point = part(43 + before_point, k->pub_len);
    r.scalar = part(scalar, length);
    r.comment = part(comment_at, comment);
    r.section = section - 4;
    r.keys = 1;
    return r;
}

static saltorchard_image encrypted_record(const sealed *s, const key *k)
{
    size_t names = 15 + 4 + strlen(CIPHERS[s->cipher].name) + 4 + strlen(KDFS[s->kdf]);
    size_t options = s->kdf == SALTORCHARD_BCRYPT ? 4 + s->salt.length + 4 : 0;
    size_t blob = names + 4 + options + 4 + 4, ciphertext = blob + s->blob.length + 4;
    saltorchard_image r = {0};
    r.kind = SALTORCHARD_ENCRYPTED;
    r.algorithm = (uint64_t)k->algorithm;
    r.cipher = (uint64_t)s->cipher;
    r.kdf = (uint64_t)s->kdf;
    r.rounds = s->rounds;
    r.form = 1;
    r.blob = part(blob, s->blob.length);
    r.point = part(blob + s->blob.length - k->pub_len, k->pub_len);
    r.ciphertext = part(ciphertext, s->ciphertext.length);
    r.section = ciphertext - 4;
    r.keys = 1;
    if (s->kdf == SALTORCHARD_BCRYPT)
        r.salt = part(names + 4 + 4, s->salt.length);
    if (s->tag.length > 0)
        r.tag = part(ciphertext + s->ciphertext.length, s->tag.length);
    return r;
}

/* Where the length bytes of a number are: in the blob of a plain image, and in its section behind that blob. */
static size_t blob_field(const rsa_key *k, int which)
{
    size_t e = 43 + 4 + 7;
    return which == RSA_E ? e : e + 4 + k->length[RSA_E];
}

static size_t pair_field(const rsa_key *header, const rsa_key *section, int which)
{
    size_t at = blob_field(header, RSA_N) + 4 + header->length[RSA_N] + 4 + 8 + 4 + 7;
    for (int i = 0; i < which; i++)
        at += 4 + section->length[i];
    return at;
}

static saltorchard_part number_of(const rsa_key *k, int which)
{
    return part(pair_field(k, k, which) + 4, k->length[which]);
}

/* Of a plain image of an RSA key. */
static saltorchard_image rsa_record(const rsa_key *k, size_t bits, uint32_t checkint, size_t comment)
{
    size_t e = blob_field(k, RSA_E), n = blob_field(k, RSA_N), section = n + 4 + k->length[RSA_N];
    size_t comment_at = pair_field(k, k, RSA_NUMBERS) + 4;
    saltorchard_image r = {0};
    r.kind = SALTORCHARD_PLAIN;
    r.algorithm = SALTORCHARD_RSA;
    r.checkint = checkint;
    r.padding = (8 - (comment_at + comment - section - 4) % 8) % 8;
    r.form = 1;
    r.blob = part(43, section - 43);
    r.comment = part(comment_at, comment);
    r.section = section;
    r.bits = bits;
    r.modulus = part(n + 4, k->length[RSA_N]);
    r.exponent = part(e + 4, k->length[RSA_E]);
    r.d = number_of(k, RSA_D);
    r.iqmp = number_of(k, RSA_IQMP);
    r.p = number_of(k, RSA_P);
    r.q = number_of(k, RSA_Q);
    r.keys = 1;
    return r;
}

static saltorchard_image sealed_rsa_record(const sealed *s, const rsa_key *k, size_t bits)
{
    key without_point = {0};
    without_point.algorithm = SALTORCHARD_RSA;
    saltorchard_image r = encrypted_record(s, &without_point);
    r.point = part(0, 0);
    r.bits = bits;
    r.exponent = part(r.blob.start + 4 + 7 + 4, k->length[RSA_E]);
    r.modulus = part(r.exponent.start + r.exponent.length + 4, k->length[RSA_N]);
    return r;
}

/* ---- what a header's read must answer */

/* A number of four bytes. One that the image has no room for counts as one past every end. */
static uint64_t uint32_at(const bytes *image, uint64_t at)
{
    uint64_t number = 0;
    if (at + 4 > image->length)
        return LARGEST;
    for (int i = 0; i < 4; i++)
        number = number << 8 | image->at[at + (uint64_t)i];
    return number;
}

/* The contents of the string at a place, its length taken at its word. */
static saltorchard_part string_at(const bytes *image, uint64_t at)
{
    return part(at + 4, uint32_at(image, at));
}

static uint64_t end_of(saltorchard_part p)
{
    return p.start + p.length;
}

/* The blob, behind the key count, which follows three strings. */
static saltorchard_part blob_of(const bytes *image)
{
    uint64_t at = 15;
    for (int i = 0; i < 3; i++)
        at = end_of(string_at(image, at));
    return string_at(image, at + 4);
}

static int names(const bytes *image, saltorchard_part p, const char *name)
{
    return p.length == strlen(name) && memcmp(image->at + p.start, name, p.length) == 0;
}

/* The bits of a number without its leading zero bits. */
static uint64_t bits_of(const uint8_t *at, size_t length)
{
    uint64_t bits = 8 * length;
    while (bits > 0 && (at[length - 1 - (bits - 1) / 8] >> (bits - 1) % 8 & 1) == 0)
        bits--;
    return bits;
}

/* Name and public fields of the blob. */
static void put_key_record(saltorchard_image *r, const bytes *image, saltorchard_part blob)
{
    saltorchard_part name = string_at(image, blob.start), first = string_at(image, end_of(name));
    while (r->algorithm < SALTORCHARD_RSA && !names(image, name, ALGORITHMS[r->algorithm]))
        r->algorithm++;
    r->blob = blob;
    if (r->algorithm == SALTORCHARD_RSA) {
        r->exponent = first;
        r->modulus = string_at(image, end_of(first));
        r->bits = bits_of(image->at + r->modulus.start, r->modulus.length);
    } else
        r->point = r->algorithm == SALTORCHARD_ED25519 ? first : string_at(image, end_of(first));
}

/* Of an image whose header is right. */
static saltorchard_image header_record(const bytes *image)
{
    saltorchard_part cipher = string_at(image, 15), kdf = string_at(image, end_of(cipher));
    saltorchard_part options = string_at(image, end_of(kdf)), blob = blob_of(image);
    saltorchard_image r = {0};
    r.kind = SALTORCHARD_HEADER;
    while (r.cipher < 9 && !names(image, cipher, CIPHERS[r.cipher].name))
        r.cipher++;
    put_key_record(&r, image, blob);
    if (names(image, kdf, KDFS[SALTORCHARD_BCRYPT])) {
        r.kdf = SALTORCHARD_BCRYPT;
        r.salt = string_at(image, options.start);
        r.rounds = uint32_at(image, end_of(r.salt));
    }
    r.section = end_of(blob);
    r.keys = uint32_at(image, blob.start - 8);
    return r;
}

/* ---- the lent buffer with an image in it */

static void lend_image(const bytes *image)
{
    lend_junk();
    memcpy(lent, image->at, image->length);
    memcpy(want, ground, sizeof ground);
}

static void holds_at(int line, const bytes *image)
{
    memcpy(want + GUARD, image->at, image->length);
    ground_at(line);
}

#define HOLDS(image) holds_at(__LINE__, (image))

#endif

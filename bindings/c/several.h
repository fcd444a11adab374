/* Images of several keys for test_several.c, put together by hand from docs/RULES.md, and where their fields must be. Nothing here calls
 * the library. */
#ifndef SEVERAL_H
#define SEVERAL_H

#include "images.h"

/* One of several keys: over a curve, or RSA's. */
typedef struct {
    int algorithm;
    key curve;
    const rsa_key *rsa;
    size_t bits; /* of RSA's modulus */
    const char *comment;
    size_t n;
} member;

static member curve_member(int algorithm, uint8_t first, const char *comment)
{
    member m = {0};
    m.algorithm = algorithm;
    m.curve = make_key(algorithm, first);
    m.comment = comment;
    m.n = strlen(comment);
    return m;
}

static member rsa_member(const rsa_key *rsa, size_t bits, const char *comment)
{
    member m = {0};
    m.algorithm = SALTORCHARD_RSA;
    m.rsa = rsa;
    m.bits = bits;
    m.comment = comment;
    m.n = strlen(comment);
    return m;
}

static void put_member_blob(bytes *to, const member *m)
{
    if (m->algorithm == SALTORCHARD_RSA)
        put_rsa_blob(to, m->rsa);
    else
        put_public(to, &m->curve);
}

/* The keypair by the writer's rule, and the comment. */
static void put_entry(bytes *to, const member *m)
{
    static bytes private_string;
    private_string.length = 0;
    if (m->algorithm == SALTORCHARD_RSA)
        put_rsa_pair(to, m->rsa);
    else {
        put_public(to, &m->curve);
        put_private(&private_string, &m->curve);
        put_string(to, private_string.at, private_string.length);
    }
    put_string(to, m->comment, m->n);
}

static size_t blob_length(const member *m)
{
    static bytes blob;
    blob.length = 0;
    put_member_blob(&blob, m);
    return blob.length;
}

static size_t entry_length(const member *m)
{
    static bytes entry;
    entry.length = 0;
    put_entry(&entry, m);
    return entry.length;
}

/* An image that says it has `count` keys, with these blobs and these entries. */
static void image_of_members(bytes *to, uint32_t count, const member *blobs, size_t blobs_n, const member *entries, size_t entries_n,
                             uint32_t checkint)
{
    static bytes blob, section;
    to->length = section.length = 0;
    put(to, "openssh-key-v1", 15);
    put_name(to, "none");
    put_name(to, "none");
    put_string(to, NULL, 0);
    put_uint32(to, count);
    for (size_t i = 0; i < blobs_n; i++) {
        blob.length = 0;
        put_member_blob(&blob, blobs + i);
        put_string(to, blob.at, blob.length);
    }
    put_uint32(&section, checkint);
    put_uint32(&section, checkint);
    for (size_t i = 0; i < entries_n; i++)
        put_entry(&section, entries + i);
    put_section(to, &section);
}

static void ring_image(bytes *to, const member *members, size_t n, uint32_t checkint)
{
    image_of_members(to, (uint32_t)n, members, n, members, n, checkint);
}

/* ---- what the reads must answer */

/* Where the section's length field is. */
static size_t section_at(const member *members, size_t n)
{
    size_t at = 39;
    for (size_t i = 0; i < n; i++)
        at += 4 + blob_length(members + i);
    return at;
}

/* Where the keypair of key k begins. */
static size_t pair_at(const member *members, size_t n, size_t k)
{
    size_t at = section_at(members, n) + 4 + 8;
    for (size_t i = 0; i + 1 < k; i++)
        at += entry_length(members + i);
    return at;
}

/* Where the field of key k's comment begins. */
static size_t comment_at(const member *members, size_t n, size_t k)
{
    const member *m = members + k - 1;
    return pair_at(members, n, k) + entry_length(m) - m->n - 4;
}

/* Of a number's string at a place of a blob or of a keypair. */
static saltorchard_part number_part(const rsa_key *k, int which, size_t *at)
{
    saltorchard_part p = part(*at + 4, k->length[which]);
    *at += 4 + k->length[which];
    return p;
}

static void put_rsa_parts(saltorchard_key *r, const rsa_key *k, size_t blob, size_t pair)
{
    size_t in_blob = blob + 4 + 7, in_pair = pair + 4 + 7;
    r->exponent = number_part(k, RSA_E, &in_blob);
    r->modulus = number_part(k, RSA_N, &in_blob);
    number_part(k, RSA_N, &in_pair);
    number_part(k, RSA_E, &in_pair);
    r->d = number_part(k, RSA_D, &in_pair);
    r->iqmp = number_part(k, RSA_IQMP, &in_pair);
    r->p = number_part(k, RSA_P, &in_pair);
    r->q = number_part(k, RSA_Q, &in_pair);
}

/* Of key k of the image of these. */
static saltorchard_key key_record(const member *members, size_t n, size_t k)
{
    const member *m = members + k - 1;
    size_t blob = section_at(members, k - 1) + 4, length = blob_length(m), pair = pair_at(members, n, k);
    saltorchard_key r = {0};
    r.algorithm = (uint64_t)m->algorithm;
    r.blob = part(blob, length);
    r.comment = part(comment_at(members, n, k) + 4, m->n);
    if (m->algorithm == SALTORCHARD_RSA) {
        r.bits = m->bits;
        put_rsa_parts(&r, m->rsa, blob, pair);
        return r;
    }
    r.point = part(blob + length - m->curve.pub_len, m->curve.pub_len);
    r.scalar = part(pair + length + 4 + needed_zeros(&m->curve), m->curve.priv_len - leading_zeros(&m->curve));
    return r;
}

/* Of the whole image: its keys' fields are the first one's. */
static saltorchard_image ring_record(const member *members, size_t n, uint32_t checkint)
{
    saltorchard_key first = key_record(members, n, 1);
    size_t content = pair_at(members, n, n) + entry_length(members + n - 1) - section_at(members, n) - 4;
    saltorchard_image r = {0};
    r.kind = SALTORCHARD_PLAIN;
    r.algorithm = first.algorithm;
    r.checkint = checkint;
    r.padding = (8 - content % 8) % 8;
    r.form = 1;
    r.blob = first.blob;
    r.point = first.point;
    r.scalar = first.scalar;
    r.comment = first.comment;
    r.section = section_at(members, n);
    r.bits = first.bits;
    r.modulus = first.modulus;
    r.exponent = first.exponent;
    r.d = first.d;
    r.iqmp = first.iqmp;
    r.p = first.p;
    r.q = first.q;
    r.keys = n;
    return r;
}

/* The header's part of that. */
static saltorchard_image ring_header(const member *members, size_t n)
{
    saltorchard_image r = ring_record(members, n, 0);
    r.kind = SALTORCHARD_HEADER;
    r.padding = r.form = 0;
    r.scalar = r.comment = r.d = r.iqmp = r.p = r.q = part(0, 0);
    return r;
}

/* ---- a text, and the table of the keys that are places in it */

enum { ROW = 19, PARTS = 9, MOST = SALTORCHARD_MOST_KEYS };

typedef struct {
    bytes text;
    uint64_t numbers[ROW * (MOST + 1)];
    size_t length;
} table;

static void put_place(table *t, const void *from, size_t n)
{
    t->numbers[t->length++] = t->text.length;
    t->numbers[t->length++] = n;
    put(&t->text, from, n);
}

static void put_row(table *t, const member *m)
{
    int is_rsa = m->algorithm == SALTORCHARD_RSA;
    t->numbers[t->length++] = (uint64_t)m->algorithm;
    put_place(t, m->curve.pub, is_rsa ? 0 : m->curve.pub_len);
    put_place(t, m->curve.priv, is_rsa ? 0 : m->curve.priv_len);
    put_place(t, m->comment, m->n);
    for (int which = 0; which < RSA_NUMBERS; which++)
        put_place(t, is_rsa ? m->rsa->at[which] : NULL, is_rsa ? m->rsa->length[which] : 0);
}

static void make_table(table *t, const member *members, size_t n)
{
    t->text.length = t->length = 0;
    for (size_t i = 0; i < n; i++)
        put_row(t, members + i);
}

#endif

/* Uses every function of saltorchard.h that knows of one key only and holds numbers, places and bytes to docs/RULES.md: the marked
 * examples, each refusal, and what must stay of a lent buffer; at last the words for each number. A failed check is a line; the last
 * line counts the checks. What is about several keys is in test_several.c, armour in test_armour.c. */
#include "saltorchard.h"

#include "checks.h"
#include "images.h"

_Static_assert(sizeof(saltorchard_part) == 16, "part");
_Static_assert(sizeof(saltorchard_reply) == 32 && offsetof(saltorchard_reply, length) == 24, "reply");
_Static_assert(sizeof(saltorchard_image) == 320 && offsetof(saltorchard_image, keys) == 312, "image");
_Static_assert(offsetof(saltorchard_image, kind) == 24 && offsetof(saltorchard_image, rounds) == 56, "image's numbers");
_Static_assert(offsetof(saltorchard_image, form) == 80 && offsetof(saltorchard_image, blob) == 88, "image's form and parts");
_Static_assert(offsetof(saltorchard_image, comment) == 136 && offsetof(saltorchard_image, tag) == 184, "image's last parts");
_Static_assert(offsetof(saltorchard_image, section) == 200 && offsetof(saltorchard_image, bits) == 208, "image's last numbers");
_Static_assert(offsetof(saltorchard_image, modulus) == 216 && offsetof(saltorchard_image, q) == 296, "image's RSA numbers");

/* ---- reads held to what they must answer */

enum { NUMBERS = 40 };

static void image_at(int line, saltorchard_image got, saltorchard_image want)
{
    static const char *const NAMES[NUMBERS] = {
        "number", "count", "at", "kind", "algorithm", "cipher", "kdf", "rounds", "checkint", "padding", "form",
        "blob.start", "blob.length", "point.start", "point.length", "scalar.start", "scalar.length", "comment.start",
        "comment.length", "salt.start", "salt.length", "ciphertext.start", "ciphertext.length", "tag.start", "tag.length",
        "section", "bits", "modulus.start", "modulus.length", "exponent.start", "exponent.length", "d.start", "d.length",
        "iqmp.start", "iqmp.length", "p.start", "p.length", "q.start", "q.length", "keys"};
    uint64_t g[NUMBERS], w[NUMBERS];
    memcpy(g, &got, sizeof g);
    memcpy(w, &want, sizeof w);
    size_t i = 0;
    while (i < NUMBERS && g[i] == w[i])
        i++;
    if (!check_at(line, i == NUMBERS))
        printf("read answers %s %llu, not %llu\n", NAMES[i], (unsigned long long)g[i], (unsigned long long)w[i]);
}

/* Is an image that is refused so refused by its header's read? The KDF without a cipher is left to the section's. No image here
 * has a blob that ends where one of its own fields should begin. */
static int in_header(const bytes *image, saltorchard_image refused)
{
    int kdf_without_cipher = refused.number == SALTORCHARD_CRYPTO && refused.at == 23;
    return refused.at < end_of(blob_of(image)) && !kdf_without_cipher;
}

/* Reads an image in halves, whose whole read gives `want`. After a refused header there is nothing to go on from. */
static void halves_at(int line, const bytes *image, saltorchard_image want)
{
    static bytes before;
    int refused = want.number != 0 && in_header(image, want);
    saltorchard_image header = refused ? want : header_record(image);
    before = *image;
    image_at(line, saltorchard_read_header(image->at, image->length), header);
    image_at(line, saltorchard_read_section(image->at, image->length, header), refused ? refusal(1, 0, 0) : want);
    true_at(line, memcmp(&before, image, sizeof before) == 0, "the image stays");
}

/* Reads an image whole and in halves. */
static void reads_at(int line, const bytes *image, saltorchard_image want)
{
    image_at(line, saltorchard_read(image->at, image->length), want);
    halves_at(line, image, want);
}

#define READS(image, want) reads_at(__LINE__, (image), (want))
#define HALVES(image, want) halves_at(__LINE__, (image), (want))

/* ---- the calls, on the lent buffer */

static saltorchard_reply write_key(const key *k, int derive, uint32_t checkint, const void *comment, size_t n, size_t room)
{
    return saltorchard_write_plain((uint8_t)k->algorithm, k->pub, k->pub_len, k->priv, k->priv_len, (uint8_t)derive, checkint,
                                   comment, n, lent, room);
}

static saltorchard_reply write_rsa(const rsa_key *k, int derive, uint32_t checkint, const void *comment, size_t n, size_t room)
{
    return saltorchard_write_rsa(k->at[RSA_N], k->length[RSA_N], k->at[RSA_E], k->length[RSA_E], k->at[RSA_D], k->length[RSA_D],
                                 k->at[RSA_IQMP], k->length[RSA_IQMP], k->at[RSA_P], k->length[RSA_P], k->at[RSA_Q],
                                 k->length[RSA_Q], (uint8_t)derive, checkint, comment, n, lent, room);
}

static saltorchard_reply write_sealed(const sealed *s, size_t room)
{
    return saltorchard_write_encrypted((uint8_t)s->cipher, (uint8_t)s->kdf, s->salt.at, s->salt.length, s->rounds, s->blob.at,
                                       s->blob.length, s->ciphertext.at, s->ciphertext.length, s->tag.at, s->tag.length, lent,
                                       room);
}

static saltorchard_reply rewrite(const bytes *image, size_t room)
{
    return saltorchard_rewrite(image->at, image->length, lent, room);
}

static saltorchard_reply change(size_t n, const void *comment, size_t c, size_t room)
{
    return saltorchard_change_comment(lent, room, n, comment, c);
}

/* An image that the reader refuses, and so do the rewrite and the comment change, whatever the comment and the room. */
static void refused_at(int line, const bytes *image, uint64_t number, uint64_t count, uint64_t at)
{
    reads_at(line, image, refusal(number, count, at));
    lend_junk();
    reply_at(line, rewrite(image, 10), number, count, at, 0);
    ground_at(line);
    lend_image(image);
    reply_at(line, change(image->length, "\xff", 1, image->length), number, count, at, 0);
    ground_at(line);
}

#define REFUSED(image, number, count, at) refused_at(__LINE__, (image), (number), (count), (at))

static bytes image, other, field;
static rsa_key rsa, wrong;
static sealed seal;
static char long_comment[LARGEST];

/* ---- the marked examples */

static void marked_openings(void)
{
    image.length = 0;
    now("M", 1);
    REFUSED(&image, 1, 0, 0);
    put(&image, "openssh-key-v1", 14);
    now("M", 2);
    REFUSED(&image, 1, 0, 0);
    image.length = 0;
    put(&image, "openssh-key-v2", 15);
    now("M", 3);
    REFUSED(&image, 2, 0, 0);
    image.length = 0;
    put(&image, "openssh-key-v1", 15);
    now("M", 4);
    REFUSED(&image, 1, 0, 15);
}

/* Writes the key, holds the bytes and the read to the length and padding given. */
static void marked_image(size_t marked, const key *k, size_t zeros, const char *comment, size_t length, size_t padding)
{
    size_t c = strlen(comment);
    saltorchard_image record = plain_record(k, zeros, 0x01020304, c, 1);
    now("M", marked);
    plain_image(&image, k, 0x01020304, comment, c);
    CHECK(image.length == length);
    CHECK(record.padding == padding);
    lend_junk();
    REPLY(write_key(k, 0, 0x01020304, comment, c, LARGEST), 0, 0, 0, length);
    HOLDS(&image);
    READS(&image, record);
    CHECK(c == 0 || memcmp(image.at + record.comment.start, comment, c) == 0);
    CHECK(memcmp(image.at + record.scalar.start, k->priv, k->priv_len) == 0);
}

static void marked_images(void)
{
    key ed25519 = make_key(SALTORCHARD_ED25519, 0xee), low = make_key(SALTORCHARD_P256, 0x7f);
    key high = make_key(SALTORCHARD_P256, 0x80);
    marked_image(5, &ed25519, 0, "", 234, 5);
    marked_image(6, &ed25519, 0, "oven7", 234, 0);
    marked_image(7, &ed25519, 0, "oven17", 242, 7);
    marked_image(8, &low, 0, "", 303, 0);
    marked_image(9, &high, 1, "", 311, 7);
}

/* An image whose scalar's string has n bytes: zeros, then `first`, then others. Answers the key with its last SIZE bytes. */
static key scalar_image(int algorithm, size_t n, size_t zeros, uint8_t first)
{
    key k = make_key(algorithm, 1);
    size_t kept = n < k.priv_len ? n : k.priv_len;
    field.length = n;
    memset(field.at, 0x33, n);
    memset(field.at, 0, zeros);
    if (zeros < n)
        field.at[zeros] = first;
    memset(k.priv, 0, k.priv_len);
    memcpy(k.priv + k.priv_len - kept, field.at + n - kept, kept);
    plain_image_of(&image, &k, &field, 9, "oven7", 5);
    return k;
}

static void rewritten(void)
{
    lend_junk();
    REPLY(rewrite(&image, image.length), 0, 0, 0, image.length);
    HOLDS(&image);
    lend_junk();
    REPLY(rewrite(&image, image.length - 1), 9, 0, 0, 0);
    KEPT();
}

/* The scalar of the image's read, with zeros filled in front, is what the writer takes, and it writes the form. */
static void written_again(const key *k)
{
    saltorchard_image read = saltorchard_read(image.at, image.length);
    key again = *k;
    memset(again.priv, 0, again.priv_len);
    memcpy(again.priv + again.priv_len - read.scalar.length, image.at + read.scalar.start, read.scalar.length);
    CHECK(memcmp(again.priv, k->priv, k->priv_len) == 0);
    plain_image(&other, k, 9, "oven7", 5);
    lend_junk();
    REPLY(write_key(&again, 0, 9, "oven7", 5, LARGEST), 0, 0, 0, other.length);
    HOLDS(&other);
}

/* Accepted and in the writer's form: rewriting makes the same image, and the comment is changed. */
static void in_the_form(const key *k)
{
    READS(&image, plain_record(k, needed_zeros(k), 9, 5, 1));
    written_again(k);
    rewritten();
    plain_image(&other, k, 9, "oven 7, line 2", 14);
    lend_image(&image);
    REPLY(change(image.length, "oven 7, line 2", 14, LARGEST), 0, 0, 0, other.length);
    HOLDS(&other);
}

/* Accepted and not in the writer's form: rewriting makes another image, and the comment isn't changed. */
static void not_the_form(const key *k, size_t zeros)
{
    READS(&image, plain_record(k, zeros, 9, 5, 0));
    written_again(k);
    lend_junk();
    REPLY(rewrite(&image, LARGEST), 0, 0, 0, other.length);
    HOLDS(&other);
    lend_image(&image);
    REPLY(change(image.length, "\xff", 1, image.length), 10, 0, 0, 0);
    KEPT();
}

static void marked_scalars(void)
{
    key k;
    now("M", 10);
    k = scalar_image(SALTORCHARD_P256, 33, 1, 0x7f);
    not_the_form(&k, 1);
    now("M", 11);
    k = scalar_image(SALTORCHARD_P256, 32, 0, 0x80);
    not_the_form(&k, 0);
    now("M", 12);
    scalar_image(SALTORCHARD_P256, 33, 0, 0x01);
    REFUSED(&image, 2, 0, 263);
    now("M", 13);
    scalar_image(SALTORCHARD_P256, 34, 2, 0x33);
    REFUSED(&image, 6, 2, 263 + 4 + 32);
    now("M", 14); /* as request Five has it */
    k = scalar_image(SALTORCHARD_P256, 31, 0, 0x33);
    in_the_form(&k);
    CHECK(saltorchard_read(image.at, image.length).scalar.start == 267);
    CHECK(saltorchard_read(image.at, image.length).scalar.length == 31);
    scalar_image(SALTORCHARD_P256, 31, 31, 0);
    REFUSED(&image, 2, 0, 263);
}

static void marked_limit(void)
{
    key k = make_key(SALTORCHARD_ED25519, 1);
    now("M", 15);
    plain_image(&image, &k, 0, long_comment, 65301);
    CHECK(image.length == 65530);
    lend_junk();
    REPLY(write_key(&k, 0, 0, long_comment, 65301, 65530), 0, 0, 0, 65530);
    HOLDS(&image);
    READS(&image, plain_record(&k, 0, 0, 65301, 1));
    lend_junk();
    REPLY(write_key(&k, 0, 0, long_comment, 65302, LARGEST), 11, 0, 0, 0);
    KEPT();
    lend_image(&image);
    REPLY(change(65530, long_comment, 65302, LARGEST), 11, 0, 0, 0);
    KEPT();
    plain_image(&other, &k, 0, long_comment, 65302);
    REFUSED(&other, 11, 0, 0);
}

static void derived(const key *k, uint32_t checkint)
{
    for (int derive = 1; derive < 256; derive += 127) {
        plain_image(&image, k, checkint, "oven7", 5);
        lend_junk();
        REPLY(write_key(k, derive, 0x55555555, "oven7", 5, LARGEST), 0, 0, 0, image.length);
        HOLDS(&image);
        READS(&image, plain_record(k, needed_zeros(k), checkint, 5, 1));
    }
}

static void marked_checkint(void)
{
    key p521 = make_key(SALTORCHARD_P521, 0), ed25519 = make_key(SALTORCHARD_ED25519, 0);
    memset(p521.priv, 0, 66);
    p521.priv[64] = 0x12;
    p521.priv[65] = 0x34;
    now("M", 16);
    derived(&p521, 0);
    now("derived checkint", 1);
    p521.priv[63] = 0x56;
    p521.priv[0] = 0x81;
    derived(&p521, 0x81000056);
    p521.priv[0] = 0;
    p521.priv[1] = 0x81;
    derived(&p521, 0x00810056);
    memset(ed25519.priv, 0, 32);
    ed25519.priv[0] = 0xf0;
    ed25519.priv[5] = 0x0f;
    ed25519.priv[30] = 0xaa;
    ed25519.priv[31] = 0x01;
    derived(&ed25519, 0xf00faa01);
}

static void marked(void)
{
    marked_openings();
    marked_images();
    marked_scalars();
    marked_limit();
    marked_checkint();
}

/* ---- every kind, written, read, rewritten, its comment changed */

static void plain_kind(const key *k)
{
    for (size_t c = 0; c < 10; c++) {
        plain_image(&image, k, 0xfedcba98, long_comment, c);
        READS(&image, plain_record(k, needed_zeros(k), 0xfedcba98, c, 1));
        lend_junk();
        REPLY(write_key(k, 0, 0xfedcba98, long_comment, c, image.length), 0, 0, 0, image.length);
        HOLDS(&image);
        lend_junk();
        REPLY(write_key(k, 0, 0xfedcba98, long_comment, c, image.length - 1), 9, 0, 0, 0);
        KEPT();
        rewritten();
        plain_image(&other, k, 0xfedcba98, "a comment of another length", 27);
        lend_image(&image);
        REPLY(change(image.length, "a comment of another length", 27, other.length), 0, 0, 0, other.length);
        HOLDS(&other);
    }
}

static void plain_kinds(void)
{
    static const uint8_t FIRST[4] = {0x00, 0x7f, 0x80, 0xff};
    for (int algorithm = 0; algorithm < 4; algorithm++) {
        for (size_t i = 0; i < 4; i++) {
            key k = make_key(algorithm, FIRST[i]);
            now("plain kind", (size_t)algorithm);
            plain_kind(&k);
        }
    }
}

static void encrypted_kind(const key *k, int cipher, int kdf, size_t blocks)
{
    make_sealed(&seal, cipher, kdf, k, blocks);
    encrypted_image(&image, &seal);
    READS(&image, encrypted_record(&seal, k));
    lend_junk();
    REPLY(write_sealed(&seal, image.length), 0, 0, 0, image.length);
    HOLDS(&image);
    lend_junk();
    REPLY(write_sealed(&seal, image.length - 1), 9, 0, 0, 0);
    KEPT();
    rewritten();
    lend_image(&image);
    REPLY(change(image.length, "\xff", 1, image.length), 8, 0, 0, 0);
    KEPT();
}

static void encrypted_kinds(void)
{
    for (int cipher = 1; cipher < 10; cipher++) {
        for (int i = 0; i < 8; i++) {
            key k = make_key(i % 4, 0x10);
            now("cipher", (size_t)cipher);
            encrypted_kind(&k, cipher, i / 4, (size_t)i);
        }
    }
}

/* ---- scalars of every length */

/* What the rules say of an image whose scalar's string has n bytes, `zeros` of them leading zeros. */
static void scalar_of_length(const key *k, size_t n, size_t zeros)
{
    size_t size = k->priv_len, at = plain_record(k, 0, 9, 5, 1).scalar.start - 4;
    if (n == 0)
        REFUSED(&image, 1, 0, at);
    else if (n > size + 1)
        REFUSED(&image, 6, n - size, at + 4 + size);
    else if (zeros == n || (n == size + 1 && zeros == 0))
        REFUSED(&image, 2, 0, at);
    else if (zeros == needed_zeros(k))
        in_the_form(k);
    else
        not_the_form(k, zeros);
}

static void scalars_of_length(int algorithm, size_t n)
{
    size_t zeros[5] = {0, 1, 2, n / 2, n};
    for (size_t i = 0; i < 5; i++) {
        for (int first = 0x7f; first <= 0x80 && zeros[i] <= n; first++) {
            key k = scalar_image(algorithm, n, zeros[i], (uint8_t)first);
            now("scalar of length", n);
            scalar_of_length(&k, n, zeros[i]);
        }
    }
}

static void scalars(void)
{
    for (int algorithm = SALTORCHARD_P256; algorithm <= SALTORCHARD_P521; algorithm++) {
        for (size_t n = 0; n <= SIZES[algorithm] + 3; n++)
            scalars_of_length(algorithm, n);
    }
}

/* A scalar of zeros only is refused whatever comes later; a seed of zeros is one like another. */
static void zeros_only(void)
{
    for (int algorithm = 0; algorithm < 4; algorithm++) {
        key k = make_key(algorithm, 0);
        now("zeros only", (size_t)algorithm);
        memset(k.priv, 0, k.priv_len);
        if (algorithm == SALTORCHARD_ED25519) {
            plain_kind(&k);
            continue;
        }
        lend_junk();
        REPLY(write_key(&k, 0, 0, "\xff", 1, 0), 2, 0, 0, 0);
        REPLY(write_key(&k, 0, 0, "oven7", 5, LARGEST), 2, 0, 0, 0);
        REPLY(write_key(&k, 1, 0, "oven7", 5, LARGEST), 2, 0, 0, 0);
        k.priv_len--;
        REPLY(write_key(&k, 0, 0, "oven7", 5, LARGEST), 1, 0, 0, 0);
        KEPT();
    }
}

/* ---- the reader's refusals */

typedef struct {
    size_t place;
    int byte;
    uint64_t number, count, at;
} damage;

static void damaged(const bytes *good, const damage *list, size_t n)
{
    for (size_t i = 0; i < n; i++) {
        now("damage of byte", list[i].place);
        image = *good;
        image.at[list[i].place] = (uint8_t)list[i].byte;
        REFUSED(&image, list[i].number, list[i].count, list[i].at);
    }
}

static void damaged_ed25519(void)
{
    static const damage LIST[] = {
        {13, '2', 2, 0, 0},     {14, 1, 2, 0, 0},      /* magic */
        {18, 3, 4, 0, 15},      {19, 'N', 4, 0, 15},   /* cipher name */
        {15, 0xff, 1, 0, 15},
        {27, 'N', 4, 0, 23},    {23, 1, 1, 0, 23},     /* KDF name and options */
        {34, 1, 3, 0, 31},      {33, 1, 1, 0, 31},
        {38, 0, 1, 0, 35},      {38, 17, 1, 0, 35},    {35, 1, 1, 0, 35}, /* key count */
        {40, 1, 1, 0, 39},      {42, 3, 1, 0, 43},     /* blob */
        {42, 50, 1, 0, 58},     {42, 52, 6, 1, 94},    {47, 'x', 4, 0, 43},
        {61, 31, 1, 0, 58},     {61, 33, 1, 0, 58},    {62, 0, 5, 0, 106},
        {97, 137, 1, 0, 94},    {97, 135, 1, 0, 98},   {97, 128, 1, 0, 225}, /* section */
        {97, 0, 1, 0, 98},      {101, 0, 3, 0, 102},   {105, 0, 3, 0, 102},
        {110, 'x', 4, 0, 106},  {106, 1, 1, 0, 106},   /* keypair */
        {124, 31, 1, 0, 121},   {124, 33, 6, 1, 157},
        {125, 0, 3, 0, 157},    {193, 0, 3, 0, 157},   {160, 63, 1, 0, 157}, {160, 65, 6, 1, 225},
        {228, 6, 1, 0, 225},    {229, 0xff, 7, 0, 225}, {228, 4, 2, 0, 233}, /* comment and padding */
    };
    key k = make_key(SALTORCHARD_ED25519, 0xee);
    static bytes good;
    plain_image(&good, &k, 0x12345678, "oven7", 5);
    damaged(&good, LIST, sizeof LIST / sizeof *LIST);
}

static void damaged_p256(void)
{
    static const damage LIST[] = {
        {46, 18, 4, 0, 43},    {69, 7, 4, 0, 66},     {77, '7', 4, 0, 66},   /* blob */
        {81, 64, 1, 0, 78},    {81, 66, 1, 0, 78},    {82, 2, 2, 0, 78},     {42, 105, 6, 1, 147},
        {185, 7, 4, 0, 182},   {193, '7', 4, 0, 182}, {197, 64, 1, 0, 194}, /* section */
        {197, 66, 6, 1, 263},  {198, 3, 2, 0, 194},   {199, 0xfe, 5, 0, 159},
        {83, 0xfe, 5, 0, 159}, {266, 31, 1, 0, 298},  {266, 34, 6, 2, 299},  {266, 33, 2, 0, 263},
        {266, 0, 1, 0, 263},   {264, 1, 1, 0, 263},
        {308, 0, 2, 0, 308},   {310, 4, 2, 0, 308},   /* padding: its first byte, whichever is wrong */
    };
    key k = make_key(SALTORCHARD_P256, 0x7f);
    static bytes good;
    plain_image(&good, &k, 0x12345678, "oven7", 5);
    damaged(&good, LIST, sizeof LIST / sizeof *LIST);
}

static void cut_or_longer(void)
{
    key k = make_key(SALTORCHARD_ED25519, 0xee);
    plain_image(&other, &k, 7, "oven17", 6);
    for (size_t n = 0; n < other.length; n++) {
        now("cut to", n);
        other.length = n;
        saltorchard_image r = saltorchard_read(other.at, n);
        CHECK(r.number == 1 && r.count == 0 && r.kind == 0 && r.at <= n);
        HALVES(&other, r);
        other.length = 242;
    }
    for (size_t n = 1; n < 9; n++) {
        now("bytes left", n);
        image = other;
        put(&image, "abcdefgh", n);
        REFUSED(&image, 6, n, 242);
    }
    now("bytes left, and a damaged section", 1);
    image.at[241] = 0;
    REFUSED(&image, 2, 0, 235);
}

/* Eight padding bytes that are right each, and are one block too many. */
static void eight_padding_bytes(void)
{
    key k = make_key(SALTORCHARD_ED25519, 0xee);
    now("padding", 8);
    plain_image(&image, &k, 7, "oven7\1\2\3\4\5\6\7\10", 13);
    image.at[228] = 5;
    REFUSED(&image, 1, 0, 234);
}

/* A P-256 header, then a section whose key fields are given, with an empty comment. */
static void other_section(const bytes *pair)
{
    key k = make_key(SALTORCHARD_P256, 0x7f);
    static bytes blob;
    blob.length = 0;
    put_public(&blob, &k);
    image_of_pair(&image, &blob, pair, 5, "", 0);
}

static void section_of_another_key(void)
{
    key p384 = make_key(SALTORCHARD_P384, 0x7f), ed25519 = make_key(SALTORCHARD_ED25519, 1);
    now("section's curve unlike its name, scalar length", 48);
    field.length = 0;
    put_name(&field, ALGORITHMS[SALTORCHARD_P256]);
    put_name(&field, CURVES[SALTORCHARD_P384]);
    put_string(&field, p384.pub, p384.pub_len);
    put_string(&field, p384.priv, 48);
    other_section(&field);
    REFUSED(&image, 4, 0, 182);
    now("section's curve unlike its name, scalar length", 47);
    field.length -= 4 + 48;
    put_string(&field, p384.priv, 47);
    other_section(&field);
    REFUSED(&image, 4, 0, 182);
    now("section's curve unlike its name, scalar length", 50);
    field.length -= 4 + 47;
    put_string(&field, p384.priv, 50);
    other_section(&field);
    REFUSED(&image, 6, 2, 295 + 4 + 48);
    now("section's curve unlike its name, scalar length", 0);
    field.length -= 4 + 50;
    put_string(&field, "", 0);
    other_section(&field);
    REFUSED(&image, 1, 0, 295);
    now("section's key of kind", 2);
    field.length = 0;
    put_public(&field, &p384);
    put_string(&field, p384.priv, 48);
    other_section(&field);
    REFUSED(&image, 5, 0, 159);
    now("section's key of kind", 0);
    field.length = 0;
    put_public(&field, &ed25519);
    put_uint32(&field, 64);
    put_private(&field, &ed25519);
    other_section(&field);
    REFUSED(&image, 5, 0, 159);
}

/* An encrypted image up to its ciphertext, with the KDF options and the blob given. */
static void sealed_header(int cipher, const bytes *options, const bytes *blob)
{
    put_header(&image, cipher, SALTORCHARD_BCRYPT, options, blob);
    put_uint32(&image, 0);
}

static void kdf_options(void)
{
    key k = make_key(SALTORCHARD_ED25519, 1);
    static bytes options, blob;
    size_t at = 15 + 4 + 10 + 4 + 6 + 4; /* the options' first byte, for aes256-ctr and bcrypt */
    blob.length = options.length = 0;
    put_public(&blob, &k);
    now("options of length", 0);
    sealed_header(SALTORCHARD_AES256_CTR, &options, &blob);
    REFUSED(&image, 1, 0, at);
    now("options of length", 7);
    put_string(&options, "abc", 3);
    sealed_header(SALTORCHARD_AES256_CTR, &options, &blob);
    REFUSED(&image, 1, 0, at + 7);
    now("options of length", 13);
    put_uint32(&options, 16);
    put(&options, "xy", 2);
    sealed_header(SALTORCHARD_AES256_CTR, &options, &blob);
    REFUSED(&image, 6, 2, at + 11);
    now("bcrypt without a cipher", 1);
    options.length -= 2;
    sealed_header(SALTORCHARD_CIPHER_NONE, &options, &blob);
    REFUSED(&image, 3, 0, 23);
    now("bcrypt without a cipher, and a blob cut short", 1);
    blob.length--;
    sealed_header(SALTORCHARD_CIPHER_NONE, &options, &blob);
    REFUSED(&image, 1, 0, 23 + 4 + 6 + 4 + 11 + 4 + 4 + 15);
}

static void ciphertexts(void)
{
    key k = make_key(SALTORCHARD_P256, 1);
    size_t at;
    make_sealed(&seal, SALTORCHARD_AES128_GCM, SALTORCHARD_BCRYPT, &k, 2);
    encrypted_image(&other, &seal);
    at = encrypted_record(&seal, &k).ciphertext.start;
    now("tag cut to", 15);
    image = other;
    image.length--;
    REFUSED(&image, 1, 0, at + 32);
    now("bytes left after the tag", 3);
    image = other;
    put(&image, "xyz", 3);
    REFUSED(&image, 6, 3, at + 48);
    now("ciphertext of length", 24);
    image = other;
    image.at[at - 1] = 24;
    REFUSED(&image, 3, 0, at - 4);
    now("ciphertext that holds the tag", 48);
    image = other;
    image.at[at - 1] = 48;
    REFUSED(&image, 1, 0, at + 48);
    now("ciphertext past the end", 49);
    image.at[at - 1] = 49;
    REFUSED(&image, 1, 0, at - 4);
}

static void too_long(void)
{
    now("image of length", 65536);
    image.length = 65536;
    memset(image.at, 'x', 65536);
    REFUSED(&image, 11, 0, 0);
    now("image of length", 65535);
    image.length = 65535;
    REFUSED(&image, 2, 0, 0);
    image.length = LARGEST;
    now("image of length", LARGEST);
    REFUSED(&image, 11, 0, 0);
}

/* ---- the writers' refusals, each where all that come later would hold too */

static void plain_order(void)
{
    key k = make_key(SALTORCHARD_P256, 1);
    now("plain writer's refusal", 1);
    lend_junk();
    k.pub[0] = 5;
    k.pub_len = 64;
    REPLY(write_key(&k, 0, 0, "\xff", 1, 0), 1, 0, 0, 0);
    k.pub_len = 65;
    k.priv_len = 33;
    REPLY(write_key(&k, 0, 0, "\xff", 1, 0), 1, 0, 0, 0);
    k.priv_len = 0;
    REPLY(write_key(&k, 1, 0, "\xff", 1, 0), 1, 0, 0, 0);
    k.priv_len = 32;
    k.algorithm = SALTORCHARD_P384;
    REPLY(write_key(&k, 0, 0, "\xff", 1, 0), 1, 0, 0, 0);
    k.algorithm = SALTORCHARD_P256;
    now("plain writer's refusal", 2);
    REPLY(write_key(&k, 0, 0, "\xff", 1, 0), 2, 0, 0, 0);
    k.pub[0] = 4;
    memset(k.priv, 0, 32);
    REPLY(write_key(&k, 0, 0, "\xff", 1, 0), 2, 0, 0, 0);
    k.priv[31] = 1;
    now("plain writer's refusal", 7);
    long_comment[65400] = (char)0xff;
    REPLY(write_key(&k, 0, 0, long_comment, 65401, 0), 7, 0, 0, 0);
    long_comment[65400] = 'c';
    now("plain writer's refusal", 11);
    REPLY(write_key(&k, 0, 0, long_comment, 65401, 0), 11, 0, 0, 0);
    now("plain writer's refusal", 9);
    REPLY(write_key(&k, 0, 0, "oven7", 5, 0), 9, 0, 0, 0);
    KEPT();
}

/* A blob that the reader would refuse by rule 4.6, with a ciphertext and a tag that are wrong too. */
static void blob_refused(int algorithm, size_t place, int byte, size_t longer, uint64_t number, uint64_t count)
{
    key k = make_key(algorithm, 1);
    make_sealed(&seal, SALTORCHARD_AES256_CTR, SALTORCHARD_BCRYPT, &k, 1);
    seal.blob.at[place] = (uint8_t)byte;
    seal.blob.length += longer;
    seal.ciphertext.length = 15;
    seal.tag.length = 1;
    REPLY(write_sealed(&seal, 0), number, count, 0, 0);
}

static void encrypted_order(void)
{
    key k = make_key(SALTORCHARD_P384, 1);
    lend_junk();
    now("encrypted writer's refusal", 3);
    make_sealed(&seal, SALTORCHARD_CIPHER_NONE, SALTORCHARD_BCRYPT, &k, 1);
    seal.blob.length = 0;
    REPLY(write_sealed(&seal, 0), 3, 0, 0, 0);
    make_sealed(&seal, SALTORCHARD_AES256_CTR, SALTORCHARD_KDF_NONE, &k, 1);
    seal.blob.length = 0;
    seal.salt.length = 1;
    REPLY(write_sealed(&seal, 0), 3, 0, 0, 0);
    seal.salt.length = 0;
    seal.rounds = 1;
    REPLY(write_sealed(&seal, 0), 3, 0, 0, 0);
    seal.rounds = 0;
    now("blob refused", 1);
    REPLY(write_sealed(&seal, 0), 1, 0, 0, 0);
    blob_refused(SALTORCHARD_P256, 38, 64, 0, 1, 0);
    blob_refused(SALTORCHARD_P521, 39, 2, 0, 2, 0);
    blob_refused(SALTORCHARD_ED25519, 4, 'x', 0, 4, 0);
    blob_refused(SALTORCHARD_P256, 22, '7', 0, 4, 0);
    blob_refused(SALTORCHARD_P384, 34, '5', 0, 4, 0);
    blob_refused(SALTORCHARD_P384, 0, 0, 3, 6, 3);
    now("blob's curve unlike its name", 4);
    make_sealed(&seal, SALTORCHARD_AES256_CTR, SALTORCHARD_BCRYPT, &k, 1);
    memcpy(seal.blob.at + 4, ALGORITHMS[SALTORCHARD_P256], 19);
    seal.blob.length++;
    REPLY(write_sealed(&seal, 0), 4, 0, 0, 0);
    seal.blob.at[39] = 3;
    REPLY(write_sealed(&seal, 0), 2, 0, 0, 0);
    KEPT();
}

static void encrypted_order_after_the_blob(void)
{
    key k = make_key(SALTORCHARD_ED25519, 1);
    lend_junk();
    for (int cipher = 1; cipher < 10; cipher++) {
        now("encrypted writer's refusals, cipher", (size_t)cipher);
        make_sealed(&seal, cipher, SALTORCHARD_BCRYPT, &k, 4);
        seal.tag.length = CIPHERS[cipher].tag + 1;
        seal.ciphertext.length = 64 + CIPHERS[cipher].block / 2;
        REPLY(write_sealed(&seal, 0), 3, 0, 0, 0);
        seal.ciphertext.length = 65536;
        REPLY(write_sealed(&seal, 0), 1, 0, 0, 0);
        seal.tag.length = CIPHERS[cipher].tag;
        REPLY(write_sealed(&seal, 0), 11, 0, 0, 0);
        seal.ciphertext.length = 64;
        REPLY(write_sealed(&seal, 0), 9, 0, 0, 0);
        if (CIPHERS[cipher].tag > 0) {
            seal.tag.length = 15;
            REPLY(write_sealed(&seal, LARGEST), 1, 0, 0, 0);
        }
    }
    KEPT();
}

/* The largest encrypted image, by its salt, and one byte more. */
static void encrypted_limit(void)
{
    key k = make_key(SALTORCHARD_ED25519, 1);
    now("encrypted image of length", 65535);
    make_sealed(&seal, SALTORCHARD_AES256_GCM, SALTORCHARD_BCRYPT, &k, 1);
    seal.rounds = 0xffffffff;
    encrypted_image(&image, &seal);
    seal.salt.length += 65535 - image.length;
    memset(seal.salt.at, 0xa5, seal.salt.length);
    encrypted_image(&image, &seal);
    lend_junk();
    REPLY(write_sealed(&seal, 65535), 0, 0, 0, 65535);
    HOLDS(&image);
    READS(&image, encrypted_record(&seal, &k));
    seal.salt.length++;
    lend_junk();
    REPLY(write_sealed(&seal, LARGEST), 11, 0, 0, 0);
    KEPT();
}

/* Without its zero this image has 65,535 bytes; the writer's form of its record would have more. */
static void rewrite_above_the_limit(void)
{
    key k = make_key(SALTORCHARD_P256, 0x80);
    now("rewrite above the limit", 65543);
    field.length = 0;
    put(&field, k.priv, 32);
    plain_image_of(&image, &k, &field, 3, long_comment, 65232);
    CHECK(image.length == 65535);
    READS(&image, plain_record(&k, 0, 3, 65232, 0));
    lend_junk();
    REPLY(rewrite(&image, LARGEST), 11, 0, 0, 0);
    KEPT();
    lend_image(&image);
    REPLY(change(65535, "", 0, LARGEST), 10, 0, 0, 0);
    KEPT();
}

/* ---- RSA keys */

static void rsa_kind(size_t bits)
{
    make_rsa(&rsa, bits);
    for (size_t c = 0; c < 10; c += 3) {
        rsa_image(&image, &rsa, 0xfedcba98, long_comment, c);
        READS(&image, rsa_record(&rsa, bits, 0xfedcba98, c));
        lend_junk();
        REPLY(write_rsa(&rsa, 0, 0xfedcba98, long_comment, c, image.length), 0, 0, 0, image.length);
        HOLDS(&image);
        lend_junk();
        REPLY(write_rsa(&rsa, 0, 0xfedcba98, long_comment, c, image.length - 1), 9, 0, 0, 0);
        KEPT();
        rewritten();
        rsa_image(&other, &rsa, 0xfedcba98, "a comment of another length", 27);
        lend_image(&image);
        REPLY(change(image.length, "a comment of another length", 27, other.length), 0, 0, 0, other.length);
        HOLDS(&other);
        lend_image(&other);
        REPLY(change(other.length, long_comment, c, other.length), 0, 0, 0, image.length);
        memset(want + GUARD + image.length, 0, other.length - image.length);
        HOLDS(&image);
    }
}

static void rsa_kinds(void)
{
    static const size_t BITS[] = {1024, 1025, 1031, 1032, 2048, 3072, 4095, 8191, 8192};
    for (size_t i = 0; i < sizeof BITS / sizeof *BITS; i++) {
        now("RSA of bits", BITS[i]);
        rsa_kind(BITS[i]);
    }
}

static void rsa_encrypted(void)
{
    key k = make_key(SALTORCHARD_ED25519, 1);
    make_rsa(&rsa, 1030);
    for (int cipher = 1; cipher < 10; cipher++) {
        now("RSA and cipher", (size_t)cipher);
        make_sealed(&seal, cipher, cipher % 2, &k, 3);
        seal_rsa(&seal, &rsa);
        encrypted_image(&image, &seal);
        READS(&image, sealed_rsa_record(&seal, &rsa, 1030));
        lend_junk();
        REPLY(write_sealed(&seal, image.length), 0, 0, 0, image.length);
        HOLDS(&image);
        rewritten();
        lend_image(&image);
        REPLY(change(image.length, "\xff", 1, image.length), 8, 0, 0, 0);
        KEPT();
    }
}

/* The ways in which a number isn't a positive one in its fewest bytes. */
enum { EMPTY, ZERO, NEGATIVE, NEEDLESS_ZERO, WAYS };

static void spoil(rsa_key *k, int which, int way)
{
    uint8_t *at = k->at[which];
    if (way == NEGATIVE) {
        at[0] |= 0x80;
        return;
    }
    memmove(at + 1, at, k->length[which]);
    at[0] = 0;
    k->length[which] = way == EMPTY ? 0 : way == ZERO ? 1 : k->length[which] + 1;
}

/* Number `which` of the key `wrong` is refused: in a section behind the blob of `rsa`, in a blob, read or written, and by the RSA
 * writer, whatever else is wrong. */
static void wrong_number(int which, uint64_t number)
{
    key k = make_key(SALTORCHARD_ED25519, 1);
    rsa_image_of(&image, &rsa, &wrong, 3, "silo 3", 6);
    REFUSED(&image, number, 0, pair_field(&rsa, &wrong, which));
    if (which == RSA_N || which == RSA_E) {
        rsa_image_of(&image, &wrong, &rsa, 3, "silo 3", 6);
        REFUSED(&image, number, 0, blob_field(&wrong, which));
        make_sealed(&seal, SALTORCHARD_AES256_CTR, SALTORCHARD_BCRYPT, &k, 1);
        seal_rsa(&seal, &wrong);
        seal.tag.length = 1;
        lend_junk();
        REPLY(write_sealed(&seal, 0), number, 0, 0, 0);
        KEPT();
    }
    lend_junk();
    REPLY(write_rsa(&wrong, 0, 0, "\xff", 1, 0), number, 0, 0, 0);
    REPLY(write_rsa(&wrong, 1, 0, "silo 3", 6, LARGEST), number, 0, 0, 0);
    KEPT();
}

static void rsa_spoiled(void)
{
    make_rsa(&rsa, 1024);
    for (int which = 0; which < RSA_NUMBERS; which++) {
        for (int way = 0; way < WAYS; way++) {
            now("RSA, number and way of being spoiled", (size_t)(10 * which + way));
            wrong = rsa;
            spoil(&wrong, which, way);
            wrong_number(which, 2);
        }
    }
}

static void rsa_sizes(void)
{
    static const size_t OUTSIDE[] = {1, 8, 1016, 1023, 8193, 8200};
    make_rsa(&rsa, 1024);
    for (size_t i = 0; i < sizeof OUTSIDE / sizeof *OUTSIDE; i++) {
        now("RSA, every number of bits", OUTSIDE[i]);
        for (int which = 0; which < RSA_NUMBERS; which++)
            make_number(&wrong, which, OUTSIDE[i]);
        wrong_number(RSA_N, 1);
    }
    for (int which = RSA_E; which < RSA_NUMBERS; which++) {
        now("RSA, larger than the modulus", (size_t)which);
        wrong = rsa;
        make_number(&wrong, which, 1025);
        wrong_number(which, 1);
        now("RSA, as large as the modulus", (size_t)which);
        make_number(&wrong, which, 1024);
        rsa_image(&image, &wrong, 3, "silo 3", 6);
        READS(&image, rsa_record(&wrong, 1024, 3, 6));
        lend_junk();
        REPLY(write_rsa(&wrong, 0, 3, "silo 3", 6, LARGEST), 0, 0, 0, image.length);
        HOLDS(&image);
    }
}

/* Two wrong numbers: a size comes after every spoiled one, and of two sizes the first that was read. */
static void rsa_two_wrong_numbers(void)
{
    make_rsa(&rsa, 1024);
    wrong = rsa;
    now("RSA, modulus too small and exponent larger", 1);
    make_number(&wrong, RSA_N, 1000);
    make_number(&wrong, RSA_E, 1001);
    rsa_image_of(&image, &wrong, &rsa, 3, "", 0);
    REFUSED(&image, 1, 0, blob_field(&wrong, RSA_E));
    rsa_image_of(&image, &rsa, &wrong, 3, "", 0);
    REFUSED(&image, 1, 0, pair_field(&rsa, &wrong, RSA_N));
    now("RSA, modulus too small and q spoiled", 1);
    spoil(&wrong, RSA_Q, NEGATIVE);
    rsa_image_of(&image, &rsa, &wrong, 3, "", 0);
    REFUSED(&image, 2, 0, pair_field(&rsa, &wrong, RSA_Q));
    now("RSA, q and iqmp spoiled", 1);
    spoil(&wrong, RSA_IQMP, NEEDLESS_ZERO);
    rsa_image_of(&image, &rsa, &wrong, 3, "", 0);
    REFUSED(&image, 2, 0, pair_field(&rsa, &wrong, RSA_IQMP));
    now("RSA, exponent too large and modulus spoiled", 1);
    wrong = rsa;
    make_number(&wrong, RSA_E, 1025);
    spoil(&wrong, RSA_N, NEGATIVE);
    rsa_image_of(&image, &wrong, &rsa, 3, "", 0);
    REFUSED(&image, 2, 0, blob_field(&wrong, RSA_N));
}

/* What comes after the numbers: the blob's end, the public key; and what comes before: a length past the end. */
static void rsa_around_the_numbers(void)
{
    make_rsa(&rsa, 1024);
    rsa_image(&other, &rsa, 3, "silo 3", 6);
    size_t name = pair_field(&rsa, &rsa, RSA_N) - 4 - 7, end = blob_field(&rsa, RSA_N) + 4 + rsa.length[RSA_N];
    now("RSA, length byte of number", 0);
    for (int which = 0; which < RSA_NUMBERS; which++) {
        image = other;
        image.at[pair_field(&rsa, &rsa, which)] = 0x7f;
        REFUSED(&image, 1, 0, pair_field(&rsa, &rsa, which));
    }
    now("RSA, blob longer by", 1);
    image = other;
    image.at[42]++;
    REFUSED(&image, 6, 1, end);
    image.at[blob_field(&rsa, RSA_N) + 3] = 120;
    REFUSED(&image, 1, 0, blob_field(&rsa, RSA_N));
    now("RSA, last byte of number changed", 0);
    for (int which = 0; which < RSA_NUMBERS; which++) {
        wrong = rsa;
        wrong.at[which][wrong.length[which] - 1] ^= 1;
        rsa_image_of(&image, &rsa, &wrong, 3, "silo 3", 6);
        if (which == RSA_N || which == RSA_E)
            REFUSED(&image, 5, 0, name);
        else
            READS(&image, rsa_record(&rsa, 1024, 3, 6));
    }
}

/* Another kind of key in the header or in the section: 5, but only after the section's own refusals. */
static void rsa_and_other_kinds(void)
{
    key k = make_key(SALTORCHARD_ED25519, 1);
    static bytes blob;
    make_rsa(&rsa, 1024);
    now("RSA section, other header", 0);
    blob.length = field.length = 0;
    put_public(&blob, &k);
    put_rsa_pair(&field, &rsa);
    image_of_pair(&image, &blob, &field, 3, "silo 3", 6);
    REFUSED(&image, 5, 0, 106);
    spoil(&rsa, RSA_Q, EMPTY);
    field.length = 0;
    put_rsa_pair(&field, &rsa);
    image_of_pair(&image, &blob, &field, 3, "silo 3", 6);
    REFUSED(&image, 2, 0, 106 + field.length - 4);
    now("RSA header, other section", 0);
    make_rsa(&rsa, 1024);
    blob.length = field.length = 0;
    put_rsa_blob(&blob, &rsa);
    put_public(&field, &k);
    put_uint32(&field, 64);
    put_private(&field, &k);
    image_of_pair(&image, &blob, &field, 3, "silo 3", 6);
    REFUSED(&image, 5, 0, 43 + blob.length + 4 + 8);
}

/* The writer's refusals, each where all that come later would hold too. */
static void rsa_order(void)
{
    make_rsa(&rsa, 1024);
    lend_junk();
    long_comment[65400] = (char)0xff;
    now("RSA writer's refusal", 2);
    wrong = rsa;
    make_number(&wrong, RSA_N, 1023);
    spoil(&wrong, RSA_Q, NEEDLESS_ZERO);
    REPLY(write_rsa(&wrong, 0, 0, long_comment, 65401, 0), 2, 0, 0, 0);
    now("RSA writer's refusal", 1);
    make_number(&wrong, RSA_Q, 512);
    REPLY(write_rsa(&wrong, 0, 0, long_comment, 65401, 0), 1, 0, 0, 0);
    now("RSA writer's refusal", 7);
    REPLY(write_rsa(&rsa, 0, 0, long_comment, 65401, 0), 7, 0, 0, 0);
    long_comment[65400] = 'c';
    now("RSA writer's refusal", 11);
    REPLY(write_rsa(&rsa, 0, 0, long_comment, 65401, 0), 11, 0, 0, 0);
    now("RSA writer's refusal", 9);
    REPLY(write_rsa(&rsa, 0, 0, "silo 3", 6, 0), 9, 0, 0, 0);
    KEPT();
}

/* The largest image of an RSA key, by its comment, and one block more. */
static void rsa_limit(void)
{
    make_rsa(&rsa, 8192);
    rsa_image(&image, &rsa, 0, "", 0);
    size_t padding = rsa_record(&rsa, 8192, 0, 0).padding;
    size_t c = (65535 - image.length) / 8 * 8 + padding;
    now("RSA, comment of length", c);
    rsa_image(&image, &rsa, 0, long_comment, c);
    CHECK(image.length > 65527 && image.length <= 65535);
    READS(&image, rsa_record(&rsa, 8192, 0, c));
    lend_junk();
    REPLY(write_rsa(&rsa, 0, 0, long_comment, c, image.length), 0, 0, 0, image.length);
    HOLDS(&image);
    lend_junk();
    REPLY(write_rsa(&rsa, 0, 0, long_comment, c + 1, LARGEST), 11, 0, 0, 0);
    KEPT();
    lend_image(&image);
    REPLY(change(image.length, long_comment, c + 1, LARGEST), 11, 0, 0, 0);
    REPLY(change(image.length, "\xff", 1, LARGEST), 7, 0, pair_field(&rsa, &rsa, RSA_NUMBERS), 0);
    KEPT();
    rsa_image(&image, &rsa, 0, long_comment, c + 1);
    REFUSED(&image, 11, 0, 0);
}

/* The zero before d counts, and the ninth byte is a rest. */
static void rsa_derived(void)
{
    static const uint8_t D[9] = {0x00, 0x81, 0x02, 0x03, 0x10, 0x20, 0x30, 0x40, 0x55};
    make_rsa(&rsa, 1024);
    memcpy(rsa.at[RSA_D], D, 9);
    rsa.length[RSA_D] = 9;
    for (int derive = 1; derive < 256; derive += 127) {
        now("RSA, derived checkint", (size_t)derive);
        rsa_image(&image, &rsa, 0x10a13243, "silo 3", 6);
        lend_junk();
        REPLY(write_rsa(&rsa, derive, 0x55555555, "silo 3", 6, LARGEST), 0, 0, 0, image.length);
        HOLDS(&image);
        READS(&image, rsa_record(&rsa, 1024, 0x10a13243, 6));
    }
}

static void rsa_keys(void)
{
    rsa_kinds();
    rsa_encrypted();
    rsa_spoiled();
    rsa_sizes();
    rsa_two_wrong_numbers();
    rsa_around_the_numbers();
    rsa_and_other_kinds();
    rsa_order();
    rsa_limit();
    rsa_derived();
}

/* ---- codes that name nothing, or for the plain writer RSA: 4 before all else */

static void unknown_algorithms(void)
{
    key k = make_key(SALTORCHARD_ED25519, 1);
    lend_junk();
    for (int code = SALTORCHARD_RSA; code < 256; code++) {
        now("algorithm code", (size_t)code);
        k.algorithm = code;
        REPLY(write_key(&k, 0, 0, "oven7", 5, LARGEST), 4, 0, 0, 0);
        REPLY(saltorchard_write_plain((uint8_t)code, NULL, 0, k.priv, 1, 1, 0, (const uint8_t *)"\xff", 1, lent, 3), 4, 0, 0, 0);
    }
    KEPT();
}

static void unknown_cipher_or_kdf(int cipher, int kdf)
{
    seal.cipher = cipher;
    seal.kdf = kdf;
    REPLY(write_sealed(&seal, LARGEST), 4, 0, 0, 0);
    REPLY(saltorchard_write_encrypted((uint8_t)cipher, (uint8_t)kdf, lent, 1, 1, NULL, 0, lent, 1, lent, 3, NULL, 0), 4, 0, 0, 0);
}

static void unknown_ciphers_and_kdfs(void)
{
    key k = make_key(SALTORCHARD_ED25519, 1);
    make_sealed(&seal, SALTORCHARD_AES256_CTR, SALTORCHARD_BCRYPT, &k, 1);
    lend_junk();
    for (int code = 10; code < 256; code++) {
        now("cipher code", (size_t)code);
        unknown_cipher_or_kdf(code, SALTORCHARD_KDF_NONE);
        unknown_cipher_or_kdf(code, SALTORCHARD_BCRYPT);
    }
    for (int code = 2; code < 256; code++) {
        now("KDF code", (size_t)code);
        unknown_cipher_or_kdf(SALTORCHARD_CIPHER_NONE, code);
        unknown_cipher_or_kdf(SALTORCHARD_AES256_CTR, code);
    }
    unknown_cipher_or_kdf(255, 255);
    KEPT();
}

/* ---- empty parts as NULL */

static void null_parts(void)
{
    key k = make_key(SALTORCHARD_ED25519, 1);
    now("NULL", 0);
    image_at(__LINE__, saltorchard_read(NULL, 0), refusal(1, 0, 0));
    image_at(__LINE__, saltorchard_read_header(NULL, 0), refusal(1, 0, 0));
    image_at(__LINE__, saltorchard_read_section(NULL, 0, refusal(0, 0, 0)), refusal(1, 0, 0));
    image_at(__LINE__, saltorchard_read_section(NULL, 0, refusal(1, 0, 0)), refusal(1, 0, 0));
    REPLY(saltorchard_rewrite(NULL, 0, NULL, 0), 1, 0, 0, 0);
    REPLY(saltorchard_change_comment(NULL, 0, 0, NULL, 0), 1, 0, 0, 0);
    REPLY(saltorchard_change_comment(NULL, 0, 1, NULL, 0), 1, 0, 0, 0);
    REPLY(saltorchard_write_plain(0, NULL, 0, NULL, 0, 1, 0, NULL, 0, NULL, 0), 1, 0, 0, 0);
    REPLY(saltorchard_write_plain(0, k.pub, 32, k.priv, 32, 1, 0, NULL, 0, NULL, 0), 9, 0, 0, 0);
    REPLY(saltorchard_write_rsa(NULL, 0, NULL, 0, NULL, 0, NULL, 0, NULL, 0, NULL, 0, 1, 0, NULL, 0, NULL, 0), 2, 0, 0, 0);
    REPLY(saltorchard_write_encrypted(1, 0, NULL, 0, 0, NULL, 0, NULL, 0, NULL, 0, NULL, 0), 1, 0, 0, 0);
    plain_image(&image, &k, 6, NULL, 0);
    REPLY(saltorchard_rewrite(image.at, image.length, NULL, 0), 9, 0, 0, 0);
    lend_junk();
    REPLY(write_key(&k, 0, 6, NULL, 0, LARGEST), 0, 0, 0, image.length);
    HOLDS(&image);
    plain_image(&other, &k, 6, "oven7", 5);
    lend_image(&other);
    REPLY(change(other.length, NULL, 0, LARGEST), 0, 0, 0, image.length);
    HOLDS(&image);
    make_sealed(&seal, SALTORCHARD_3DES_CBC, SALTORCHARD_KDF_NONE, &k, 0);
    encrypted_image(&image, &seal);
    lend_junk();
    REPLY(saltorchard_write_encrypted(1, 0, NULL, 0, 0, seal.blob.at, seal.blob.length, NULL, 0, NULL, 0, lent, image.length),
          0, 0, 0, image.length);
    HOLDS(&image);
}

/* ---- comments */

static const struct {
    const char *text;
    size_t length;
    int utf8;
} COMMENTS[] = {
    {"\0", 1, 1},                {"\x7f", 1, 1},             {"\xc3\xa9", 2, 1},         {"\xdf\xbf", 2, 1},
    {"\xe0\xa0\x80", 3, 1},      {"\xe2\x82\xac", 3, 1},     {"\xed\x9f\xbf", 3, 1},     {"\xee\x80\x80", 3, 1},
    {"\xef\xbf\xbf", 3, 1},      {"\xf0\x90\x80\x80", 4, 1}, {"\xf4\x8f\xbf\xbf", 4, 1}, {"eight by\xc3\xa9teight", 16, 1},
    {"\x80", 1, 0},              {"\xc0\x80", 2, 0},         {"\xc1\xbf", 2, 0},         {"\xc3", 1, 0},
    {"\xc3(", 2, 0},             {"\xe0\x9f\xbf", 3, 0},     {"\xed\xa0\x80", 3, 0},     {"\xe2\x82", 2, 0},
    {"\xf0\x8f\xbf\xbf", 4, 0},  {"\xf4\x90\x80\x80", 4, 0}, {"\xf5\x80\x80\x80", 4, 0}, {"\xf0\x9f\x94", 3, 0},
    {"\xff", 1, 0},              {"eight by\xc3teeight", 15, 0}, {"sixteen by seven\xe2\x82", 18, 0},
};

static void comment_bytes(void)
{
    key k = make_key(SALTORCHARD_P384, 0x7f);
    size_t old = plain_record(&k, 0, 8, 5, 1).comment.start - 4;
    for (size_t i = 0; i < sizeof COMMENTS / sizeof *COMMENTS; i++) {
        const char *text = COMMENTS[i].text;
        size_t n = COMMENTS[i].length;
        int good = COMMENTS[i].utf8;
        now("comment", i);
        plain_image(&image, &k, 8, text, n);
        READS(&image, good ? plain_record(&k, 0, 8, n, 1) : refusal(7, 0, old));
        lend_junk();
        REPLY(write_key(&k, 0, 8, text, n, LARGEST), good ? 0 : 7, 0, 0, good ? image.length : 0);
        if (good)
            HOLDS(&image);
        else
            KEPT();
        plain_image(&other, &k, 8, "oven7", 5);
        lend_image(&other);
        REPLY(change(other.length, text, n, 600), good ? 0 : 7, 0, good ? 0 : old, good ? image.length : 0);
        if (good && image.length < other.length)
            memset(want + GUARD + image.length, 0, other.length - image.length);
        if (good)
            HOLDS(&image);
        else
            KEPT();
    }
}

/* One step of a sequence: the reply, the image, zeros where the old one was longer. Answers the length that now stands. */
static size_t step(int line, const key *k, size_t n, const char *comment, size_t room, uint64_t number, uint64_t at)
{
    size_t c = strlen(comment);
    now("change of a comment at length", n);
    if (number != 0) {
        reply_at(line, change(n, comment, c, room), number, 0, at, 0);
        ground_at(line);
        return n;
    }
    plain_image(&image, k, 4, comment, c);
    reply_at(line, change(n, comment, c, room), 0, 0, 0, image.length);
    if (image.length < n)
        memset(want + GUARD + image.length, 0, n - image.length);
    holds_at(line, &image);
    return image.length;
}

static void comment_sequence(void)
{
    static const char SIXTY[] = "sixty bytes of inventory text, with a shelf, a row and an id";
    key k = make_key(SALTORCHARD_P256, 0x80);
    size_t n;
    plain_image(&image, &k, 4, SIXTY, 60);
    lend_image(&image);
    n = step(__LINE__, &k, image.length, SIXTY, 367, 0, 0);
    CHECK(n == 367);
    n = step(__LINE__, &k, n, "x", 367, 0, 0);
    CHECK(n == 311);
    n = step(__LINE__, &k, n, "\xff", 0x137, 7, 264 + 4 + 32);
    n = step(__LINE__, &k, n, "12345678", 318, 9, 0);
    n = step(__LINE__, &k, n, "12345678", 319, 0, 0);
    CHECK(n == 319);
    n = step(__LINE__, &k, n, long_comment, 319, 11, 0);
    n = step(__LINE__, &k, n, "", 319, 0, 0);
    CHECK(n == 311);
    n = step(__LINE__, &k, n, "1234567", 311, 0, 0);
    n = step(__LINE__, &k, n, SIXTY, LARGEST, 0, 0);
    CHECK(n == 367);
    plain_image(&image, &k, 4, SIXTY, 60);
    READS(&image, plain_record(&k, 1, 4, 60, 1));
}

static void comment_lengths(void)
{
    key k = make_key(SALTORCHARD_ED25519, 1);
    now("image's length in the buffer", 0);
    plain_image(&image, &k, 2, "oven7", 5);
    lend_image(&image);
    REPLY(change(65536, "\xff", 1, 10), 11, 0, 0, 0);
    REPLY(change(SIZE_MAX, "\xff", 1, 10), 11, 0, 0, 0);
    REPLY(change(65535, "\xff", 1, 65534), 1, 0, 0, 0);
    REPLY(change(235, "\xff", 1, 234), 1, 0, 0, 0);
    REPLY(change(0, "\xff", 1, 234), 1, 0, 0, 0);
    REPLY(change(233, "\xff", 1, 234), 1, 0, 94, 0);
    REPLY(change(236, "\xff", 1, 300), 6, 2, 234, 0);
    KEPT();
}

/* ---- the two halves of a read */

/* One image of each algorithm but RSA, then one of each cipher with KDF none or bcrypt, then one of RSA, plain, and one encrypted: no
 * two have the same header. */
enum { RSA_PLAIN = 13, RSA_SEALED, KINDS };

static void image_of_kind(bytes *to, int kind)
{
    key k = make_key(kind % 4, 0x7f);
    now("halves of kind", (size_t)kind);
    make_rsa(&rsa, 1024);
    if (kind < 4) {
        plain_image(to, &k, 0x01020304, "oven7", 5);
        return;
    }
    if (kind == RSA_PLAIN) {
        rsa_image(to, &rsa, 0x01020304, "silo 3", 6);
        return;
    }
    make_sealed(&seal, kind < RSA_PLAIN ? kind - 3 : SALTORCHARD_AES256_CTR, kind % 2, &k, 2);
    if (kind == RSA_SEALED)
        seal_rsa(&seal, &rsa);
    encrypted_image(to, &seal);
}

/* The lent image's first n bytes: the header is there from the blob's end on, whatever follows. */
static void cut_to(size_t n, saltorchard_image header)
{
    int whole_header = n >= header.section;
    saltorchard_image read = saltorchard_read(lent, n);
    image_at(__LINE__, saltorchard_read_header(lent, n), whole_header ? header : read);
    image_at(__LINE__, saltorchard_read_section(lent, n, header), whole_header ? read : refusal(1, 0, 0));
}

static void halves_cut(void)
{
    for (int kind = 0; kind < KINDS; kind++) {
        image_of_kind(&image, kind);
        saltorchard_image header = header_record(&image);
        lend_image(&image);
        for (size_t n = 0; n < image.length; n++) {
            now("halves cut to", n);
            cut_to(n, header);
            CHECK(saltorchard_read_header(lent, n).kind == (n < header.section ? SALTORCHARD_REFUSED : SALTORCHARD_HEADER));
            CHECK(saltorchard_read(lent, n).number == 1);
        }
        for (size_t n = image.length; n < image.length + 20; n++)
            cut_to(n, header);
        KEPT();
    }
}

/* Each byte of the section, or of what stands there for one, is changed: the header doesn't know, and the section's read says what
 * the whole read says. */
static void halves_damaged(void)
{
    static const uint8_t CHANGES[3] = {0x01, 0x80, 0xff};
    for (int kind = 0; kind < KINDS; kind++) {
        image_of_kind(&image, kind);
        saltorchard_image header = header_record(&image);
        for (size_t i = header.section; i < image.length; i++) {
            for (size_t c = 0; c < 3; c++) {
                now("halves, damage of byte", i);
                image.at[i] ^= CHANGES[c];
                HALVES(&image, saltorchard_read(image.at, image.length));
                image.at[i] ^= CHANGES[c];
            }
        }
        memset(image.at + header.section, 0xff, image.length - header.section);
        READS(&image, refusal(1, 0, header.section));
        image.length = header.section;
        READS(&image, refusal(1, 0, header.section));
    }
}

/* A half that isn't the image's header. */
static void forged_at(int line, const bytes *image, saltorchard_image half)
{
    image_at(line, saltorchard_read_section(image->at, image->length, half), refusal(1, 0, 0));
}

#define FORGED(image, half) forged_at(__LINE__, (image), (half))

/* The header with one of its numbers made another. */
static saltorchard_image with_number(saltorchard_image header, size_t place, uint64_t number)
{
    uint64_t numbers[NUMBERS];
    memcpy(numbers, &header, sizeof numbers);
    numbers[place] = number;
    memcpy(&header, numbers, sizeof numbers);
    return header;
}

static uint64_t number_at(saltorchard_image header, size_t place)
{
    uint64_t numbers[NUMBERS];
    memcpy(numbers, &header, sizeof numbers);
    return numbers[place];
}

static void numbers_changed(const bytes *image, saltorchard_image header)
{
    static const uint64_t STEPS[] = {1, (uint64_t)1 << 32, (uint64_t)1 << 63, UINT64_MAX, 256};
    for (size_t place = 0; place < NUMBERS; place++) {
        now("halves, change of number", place);
        for (size_t s = 0; s < sizeof STEPS / sizeof *STEPS; s++)
            FORGED(image, with_number(header, place, number_at(header, place) + STEPS[s]));
    }
}

/* Kind and codes: every other one of a byte, and those that are right in their low bits alone. */
static void codes_changed(const bytes *image, saltorchard_image header)
{
    for (size_t place = 3; place < 7; place++) {
        now("halves, code at", place);
        uint64_t right = number_at(header, place);
        for (uint64_t code = 0; code <= 256; code++) {
            if (code != right)
                FORGED(image, with_number(header, place, code));
        }
        for (int bit = 8; bit < 64; bit++)
            FORGED(image, with_number(header, place, right | (uint64_t)1 << bit));
    }
}

/* The key count, the last number. */
static void counts_changed(const bytes *image, saltorchard_image header)
{
    static const uint64_t COUNTS[] = {0, 2, 16, 17, UINT32_MAX, (uint64_t)1 << 32 | 1, (uint64_t)1 << 63, UINT64_MAX};
    CHECK(header.keys == 1);
    for (size_t i = 0; i < sizeof COUNTS / sizeof *COUNTS; i++) {
        now("halves, count of keys", i);
        saltorchard_image half = header;
        half.keys = COUNTS[i];
        FORGED(image, half);
    }
}

/* What other reads answer. */
static void answers_handed_in(const bytes *image, saltorchard_image header)
{
    saltorchard_image read = saltorchard_read(image->at, image->length);
    now("halves, other answers", image->length);
    FORGED(image, read);
    FORGED(image, with_number(read, 3, SALTORCHARD_HEADER));
    for (uint64_t number = 0; number < 12; number++)
        FORGED(image, refusal(number, 0, 0));
    FORGED(image, refusal(6, 1, header.section));
    FORGED(image, saltorchard_read_header(image->at, (size_t)header.section - 1));
    image_at(__LINE__, saltorchard_read_section(NULL, 0, header), refusal(1, 0, 0));
    read = saltorchard_read(image->at, image->length - 1);
    CHECK(read.number == 1);
    FORGED(image, read);
}

static void halves_forged(void)
{
    for (int kind = 0; kind < KINDS; kind++) {
        image_of_kind(&image, kind);
        lend_image(&image);
        saltorchard_image header = header_record(&image);
        numbers_changed(&image, header);
        codes_changed(&image, header);
        counts_changed(&image, header);
        answers_handed_in(&image, header);
        for (int another = 0; another < KINDS; another++) {
            image_of_kind(&other, another);
            if (another != kind)
                FORGED(&image, header_record(&other));
        }
        CHECK(memcmp(lent, image.at, image.length) == 0);
        image_at(__LINE__, saltorchard_read_section(image.at, image.length, header), saltorchard_read(image.at, image.length));
    }
}

/* A header is its numbers: one read from an image with another comment, another key and the same places is this image's too. */
static void header_of_a_like_image(void)
{
    key k = make_key(SALTORCHARD_P256, 0x7f), like = k;
    like.pub[64] ^= 1;
    now("header of a like image", 1);
    plain_image(&image, &k, 3, "oven7", 5);
    plain_image(&other, &like, 4, "a comment of another length", 27);
    image_at(__LINE__, saltorchard_read_section(image.at, image.length, saltorchard_read_header(other.at, other.length)),
             plain_record(&k, 0, 3, 5, 1));
    make_rsa(&rsa, 2048);
    wrong = rsa;
    wrong.at[RSA_N][256] ^= 1;
    now("header of a like image", 2);
    rsa_image(&image, &rsa, 3, "silo 3", 6);
    rsa_image(&other, &wrong, 4, "a comment of another length", 27);
    image_at(__LINE__, saltorchard_read_section(image.at, image.length, saltorchard_read_header(other.at, other.length)),
             rsa_record(&rsa, 2048, 3, 6));
}

/* An image above the limit has no header, so none is right for it: 1, not 11. */
static void halves_above_the_limit(void)
{
    key k = make_key(SALTORCHARD_ED25519, 1);
    saltorchard_image header;
    now("halves at length", 65535);
    plain_image(&image, &k, 2, "oven7", 5);
    header = header_record(&image);
    image.length = 65535;
    READS(&image, refusal(6, 65535 - 234, 234));
    now("halves at length", 65536);
    image.length = 65536;
    READS(&image, refusal(11, 0, 0));
    FORGED(&image, header);
    FORGED(&image, refusal(0, 0, 0));
    image.length = LARGEST;
    FORGED(&image, header);
}

/* ---- the words for a number */

static void reasons(void)
{
    static const char *const WORDS[] = {
        "accepted", "cut short", "openssh-key-v1", "checkints", "unknown", "public key", "left over", "UTF-8", "encrypted", "buffer",
        "writer", "65,535"};
    static const uint64_t OTHERS[] = {12, 13, 255, 256, ((uint64_t)1 << 32) + 7, (uint64_t)1 << 63, UINT64_MAX};
    for (uint64_t number = 0; number <= SALTORCHARD_TOO_LONG; number++) {
        now("reason of", (size_t)number);
        CHECK(strstr(saltorchard_reason(number), WORDS[number]) != NULL);
        for (uint64_t other = number + 1; other <= SALTORCHARD_TOO_LONG + 1; other++)
            CHECK(strcmp(saltorchard_reason(number), saltorchard_reason(other)) != 0);
    }
    for (size_t i = 0; i < sizeof OTHERS / sizeof *OTHERS; i++) {
        now("reason of another number", i);
        CHECK(strcmp(saltorchard_reason(OTHERS[i]), "this header doesn't know the number") == 0);
    }
}

int main(void)
{
    memset(long_comment, 'c', sizeof long_comment - 1);
    marked();
    plain_kinds();
    encrypted_kinds();
    scalars();
    zeros_only();
    damaged_ed25519();
    damaged_p256();
    cut_or_longer();
    eight_padding_bytes();
    section_of_another_key();
    kdf_options();
    ciphertexts();
    too_long();
    plain_order();
    encrypted_order();
    encrypted_order_after_the_blob();
    encrypted_limit();
    rewrite_above_the_limit();
    rsa_keys();
    unknown_algorithms();
    unknown_ciphers_and_kdfs();
    null_parts();
    comment_bytes();
    comment_sequence();
    comment_lengths();
    halves_cut();
    halves_damaged();
    halves_forged();
    header_of_a_like_image();
    halves_above_the_limit();
    reasons();
    return checked();
}

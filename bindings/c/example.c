/* Makes an Ed25519 image, reads it, prints its comment, changes it in place, has a change refused, and puts the image through its text
 * form. Then makes an RSA image and has its header say the size, adds a second key to it, prints both, and removes the first. The keys'
 * bytes are made up. */
#include "saltorchard.h"

#include <stdio.h>
#include <string.h>

static uint8_t buffer[SALTORCHARD_LIMIT], text[88699]; /* room for the text of any image */

static int refused(const char *what, uint64_t number, uint64_t count, uint64_t at)
{
    printf("%s: refused %d, count %d, at byte %d: %s\n", what, (int)number, (int)count, (int)at, saltorchard_reason(number));
    return 1;
}

static int show(size_t length)
{
    saltorchard_image image = saltorchard_read(buffer, length);
    if (image.number != SALTORCHARD_ACCEPTED)
        return refused("read", image.number, image.count, image.at);
    printf("%d bytes, comment: ", (int)length);
    fwrite(buffer + image.comment.start, 1, image.comment.length, stdout);
    puts("");
    return 0;
}

/* A comment in Latin-1 isn't taken, and the image stays as it was. */
static int latin1(size_t length)
{
    const uint8_t comment[] = {'f', 'o', 'u', 'r', ' ', 0xe0, ' ', 'p', 'a', 'i', 'n'};
    saltorchard_reply reply = saltorchard_change_comment(buffer, sizeof buffer, length, comment, sizeof comment);
    return reply.number == SALTORCHARD_ACCEPTED || !refused("change", reply.number, reply.count, reply.at);
}

/* Armour on, as it stands in a key file, and off again, as for a file that was read into `text`. */
static int armoured(size_t length)
{
    saltorchard_reply reply = saltorchard_export(buffer, length, text, sizeof text);
    if (reply.number != SALTORCHARD_ACCEPTED)
        return refused("export", reply.number, reply.count, reply.at);
    printf("%d bytes of text: %.35s\n", (int)reply.length, (const char *)text);

    reply = saltorchard_import(text, reply.length, buffer, sizeof buffer);
    if (reply.number != SALTORCHARD_ACCEPTED)
        return refused("import", reply.number, reply.count, reply.at);
    return show(reply.length);
}

static int ed25519(void)
{
    const char *first = "oven7", *second = "oven7, moved to line 3";
    uint8_t public_key[32], seed[32];
    memset(public_key, 0x50, sizeof public_key);
    memset(seed, 0x5e, sizeof seed);

    saltorchard_reply reply = saltorchard_write_plain(SALTORCHARD_ED25519, public_key, 32, seed, 32,
        1, 0, (const uint8_t *)first, strlen(first), buffer, sizeof buffer);
    if (reply.number != SALTORCHARD_ACCEPTED)
        return refused("write", reply.number, reply.count, reply.at);
    if (show(reply.length) != 0)
        return 1;

    reply = saltorchard_change_comment(buffer, sizeof buffer, reply.length, (const uint8_t *)second, strlen(second));
    if (reply.number != SALTORCHARD_ACCEPTED)
        return refused("change", reply.number, reply.count, reply.at);
    return show(reply.length) != 0 || latin1(reply.length) != 0 || armoured(reply.length) != 0;
}

/* Each key of the image, by its number. */
static int show_keys(size_t length)
{
    uint64_t keys = saltorchard_read(buffer, length).keys;
    for (uint64_t k = 1; k <= keys; k++) {
        saltorchard_key key = saltorchard_read_key(buffer, length, k);
        if (key.number != SALTORCHARD_ACCEPTED)
            return refused("key", key.number, key.count, key.at);
        printf("key %d of %d, comment: %.*s\n", (int)k, (int)keys, (int)key.comment.length,
            (const char *)buffer + key.comment.start);
    }
    return 0;
}

/* The image in the buffer gets a second key; then the first one is taken out. */
static int several(size_t length)
{
    const char *comment = "mixer";
    uint8_t public_key[32], seed[32];
    memset(public_key, 0x51, sizeof public_key);
    memset(seed, 0x5f, sizeof seed);

    saltorchard_reply reply = saltorchard_add_key(buffer, sizeof buffer, length, SALTORCHARD_ED25519, public_key, 32, seed, 32,
        (const uint8_t *)comment, strlen(comment));
    if (reply.number != SALTORCHARD_ACCEPTED)
        return refused("add", reply.number, reply.count, reply.at);
    if (show_keys(reply.length) != 0)
        return 1;

    reply = saltorchard_remove_key(buffer, sizeof buffer, reply.length, 1);
    if (reply.number != SALTORCHARD_ACCEPTED)
        return refused("remove", reply.number, reply.count, reply.at);
    return show(reply.length);
}

static int rsa(void)
{
    const char *comment = "silo 3";
    uint8_t n[257], e[3] = {1, 0, 1}, d[256], half[128];
    memset(n, 0xc5, sizeof n);
    n[0] = 0; /* the next byte is 0x80 or more */
    memset(d, 0x1d, sizeof d);
    memset(half, 0x7f, sizeof half);

    saltorchard_reply reply = saltorchard_write_rsa(n, sizeof n, e, sizeof e, d, sizeof d, half, sizeof half, half, sizeof half,
        half, sizeof half, 1, 0, (const uint8_t *)comment, strlen(comment), buffer, sizeof buffer);
    if (reply.number != SALTORCHARD_ACCEPTED)
        return refused("write", reply.number, reply.count, reply.at);
    saltorchard_image header = saltorchard_read_header(buffer, reply.length);
    if (header.number != SALTORCHARD_ACCEPTED)
        return refused("read", header.number, header.count, header.at);
    printf("%d bytes, RSA of %d bits\n", (int)reply.length, (int)header.bits);
    return show(reply.length) != 0 || several(reply.length) != 0;
}

int main(void)
{
    return ed25519() != 0 || rsa() != 0;
}

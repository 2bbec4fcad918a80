/* What libFuzzer runs over the C boundary: every call, on memory of exactly the lent size, and what must hold of the answers.
 * Built with -DLIE=1, 2 or 3 it says once that there is a byte more to read or to write, which AddressSanitizer must catch. */
#include <stdio.h>
#include <stdlib.h>
#include <string.h>

#include "cratehoist.h"

#ifndef LIE
#define LIE 0
#endif

#define MUST(fact)                                                                    \
    do {                                                                              \
        if (!(fact)) {                                                                \
            fprintf(stderr, "%s:%d: does not hold: %s\n", __FILE__, __LINE__, #fact); \
            abort();                                                                  \
        }                                                                             \
    } while (0)

/* Bytes with nothing around them. Of none there is no pointer: (NULL, 0) is the empty slice. */
typedef struct lent {
    uint8_t *at;
    size_t size;
} lent;

static lent alone(const uint8_t *bytes, size_t size, size_t room)
{
    lent l = {NULL, size + room};
    if (l.size) {
        l.at = malloc(l.size);
        MUST(l.at);
        if (size)
            memcpy(l.at, bytes, size);
        if (room)
            memset(l.at + size, 0xEE, room);
    }
    return l;
}

static bool same(const uint8_t *a, const uint8_t *b, size_t size)
{
    return size == 0 || memcmp(a, b, size) == 0;
}

/* Parts of the input, used as keys, phrases and the like. */
static lent piece(const uint8_t *bytes, size_t size, size_t start, size_t most)
{
    if (start > size)
        start = size;
    size -= start;
    return alone(bytes + start, size < most ? size : most, 0);
}

/* A number of two bytes; 0 where they aren't there. */
static uint16_t u16_at(const uint8_t *bytes, size_t size, size_t place)
{
    return place + 2 <= size ? (uint16_t)(bytes[place] << 8 | bytes[place + 1]) : 0;
}

static void sums(lent s, lent key)
{
    uint32_t sum = cratehoist_crc32(s.at, s.size + (LIE == 1 && s.size));
    MUST(s.size || sum == 0);
    cratehoist_sha1(s.at, s.size);
    cratehoist_digest h = cratehoist_hmac(key.at, key.size, s.at, s.size);
    if (s.size >= 4) {
        cratehoist_digest front = cratehoist_hmac_front(key.at, key.size, s.at, s.size, s.size, u16_at(s.at, s.size, 2));
        MUST(same(h.bytes, front.bytes, 20));
    }
    bool text = cratehoist_is_utf8(s.at, s.size);
    MUST(s.size || text);
}

static void names(uint16_t number)
{
    cratehoist_name names[] = {cratehoist_attribute_name(number), cratehoist_code_name(number), cratehoist_number_name(number % 256),
        cratehoist_class_name(number), cratehoist_method_name(number)};
    for (size_t i = 0; i < sizeof names / sizeof *names; i++)
        MUST(names[i].size <= sizeof names[i].text);
}

/* An ERROR-CODE as it was read, written typed, is the same value. */
static void code_again(lent v, cratehoist_typed t, cratehoist_id id)
{
    lent b = alone(NULL, 0, 24 + (v.size + 3) / 4 * 4);
    MUST(cratehoist_begin(b.at, b.size, CRATEHOIST_ERROR_RESPONSE, CRATEHOIST_BINDING, id).size == 20);
    cratehoist_written w = cratehoist_append_error_code(b.at, b.size, t.code, t.reserved, v.at + t.start, t.size);
    MUST(w.number == 0 && w.size == b.size && u16_at(b.at, b.size, 22) == v.size && same(b.at + 24, v.at, v.size));
    free(b.at);
}

/* What one value says, asked of a copy of it. */
static void value(uint16_t kind, const uint8_t *bytes, size_t size, cratehoist_id id)
{
    lent v = alone(bytes, size, 0);
    cratehoist_typed t = cratehoist_typed_value(kind, v.at, v.size, id);
    MUST(cratehoist_refusal(kind, v.at, v.size) == (t.number ? 23 : 0));
    MUST(t.start <= size && t.size <= size - t.start);
    MUST(t.number == 0 || (t.family == 0 && t.port == 0 && t.code == 0 && t.reserved == 0 && t.start == 0 && t.size == 0));
    MUST(cratehoist_attribute_name(kind).size || (t.number == 0 && t.size == size)); /* an unknown type is plain */
    if (t.family) {
        cratehoist_address a = {t.family, t.port, {0}};
        memcpy(a.ip, t.ip, 16);
        cratehoist_xor_form there = cratehoist_address_xor(a, id);
        cratehoist_xor_form back = cratehoist_address_xor(there.address, id);
        MUST(there.number == 0 && back.number == 0 && back.address.port == a.port && same(back.address.ip, a.ip, 16));
    }
    if (t.code)
        code_again(v, t, id);
    free(v.at);
}

/* Where the first attribute of a type is, which one at a place shows to be there. */
static void first(lent d, uint16_t kind, size_t place, bool whole)
{
    cratehoist_first f = cratehoist_search(d.at, d.size, kind);
    cratehoist_part p = cratehoist_first_value(d.at, d.size, kind);
    MUST(f.there && f.place <= place);
    MUST(p.there == whole && (!whole || (p.start == f.place + 4 && p.size == f.size)));
}

static bool has(lent d, uint16_t kind)
{
    return cratehoist_first_value(d.at, d.size, kind).there;
}

/* All that can be asked of a datagram. */
static cratehoist_reading asked(lent d, lent key)
{
    cratehoist_reading r = cratehoist_read(d.at, d.size);
    MUST((r.what == CRATEHOIST_REFUSED) == (r.number != 0 && r.number <= 4));
    MUST((r.what == CRATEHOIST_WHOLE) == (r.number == 0));
    MUST(r.number <= 4 || (r.number >= 10 && r.number <= 15));
    MUST(r.what == CRATEHOIST_REFUSED || same(r.id.bytes, d.at + 8, 12));
    size_t place = 20, count = 0;
    cratehoist_step s;
    for (;; place = s.next, count++) {
        s = cratehoist_walk(d.at, d.size, place);
        MUST(s.place == place);
        if (s.what != CRATEHOIST_ATTRIBUTE)
            break;
        MUST(s.value == place + 4 && s.size <= d.size && s.next == s.value + (s.size + 3) / 4 * 4 && s.next <= d.size);
        value(s.kind, d.at + s.value, s.size, r.id);
        if (count < 4 || s.next == d.size)
            first(d, s.kind, place, r.number == 0);
    }
    MUST(r.what != CRATEHOIST_WHOLE || (s.what == CRATEHOIST_END && count == r.count));
    MUST(r.number != 10 || (s.what == CRATEHOIST_CUT && place == r.place));
    cratehoist_part realm = cratehoist_realm(d.at, d.size, key.at, key.size);
    MUST(realm.there == has(d, CRATEHOIST_REALM));
    MUST(realm.there ? realm.start + realm.size <= d.size : realm.start == 0 && realm.size == key.size);
    uint8_t integrity = cratehoist_check_integrity(d.at, d.size, key.at, key.size);
    MUST(r.number ? integrity == r.number : integrity == 0 || integrity == 31 || integrity == 32);
    MUST(r.number || (integrity == 31) == !has(d, CRATEHOIST_MESSAGE_INTEGRITY));
    return r;
}

/* A whole datagram, written again by begin and raw appends, is the same bytes. */
static void again(lent d, cratehoist_reading r)
{
    lent b = alone(NULL, 0, d.size);
    cratehoist_written w = cratehoist_begin(b.at, b.size, r.message_class, r.method, r.id);
    for (size_t place = 20; place < d.size;) {
        cratehoist_step s = cratehoist_walk(d.at, d.size, place);
        size_t end = s.value + s.size;
        w = cratehoist_append_raw(b.at, b.size, s.kind, d.at + s.value, s.size, d.at + end, s.next - end);
        MUST(w.number == 0 && w.size == s.next);
        place = s.next;
    }
    MUST(w.number == 0 && w.size == d.size && same(b.at, d.at, d.size));
    free(b.at);
}

/* The first RAW appends apply no rule to the value; the last one signs. */
enum { RAW = 2, SIGN = 9, APPENDS = 10 };

static cratehoist_written append(int which, lent b, lent part, uint16_t kind)
{
    static const uint8_t zeros[3] = {0};
    size_t padding = (4 - part.size % 4) % 4;
    cratehoist_address address = {1 + part.size % 3, kind, {0}};
    memcpy(address.ip, part.at ? part.at : zeros, part.size < 16 ? part.size : 16);
    switch (which) {
    case 0:
        return cratehoist_append_raw(b.at, b.size + (LIE == 2), kind, part.at, part.size, zeros, padding);
    case 1:
        return cratehoist_append_raw(b.at, b.size, kind, part.at, part.size, part.at, part.size % 4);
    case 2:
        return cratehoist_append_text(b.at, b.size, CRATEHOIST_SOFTWARE, part.at, part.size);
    case 3:
        return cratehoist_append_text(b.at, b.size, kind, part.at, part.size);
    case 4:
        return cratehoist_append_unknown_attributes(b.at, b.size, part.at, part.size);
    case 5:
        return cratehoist_append_error_code(b.at, b.size, 250 + kind % 500, (uint32_t)kind << part.size % 8, part.at, part.size);
    case 6:
        return cratehoist_append_address(b.at, b.size, CRATEHOIST_XOR_MAPPED_ADDRESS, address);
    case 7:
        return cratehoist_append_address(b.at, b.size, kind, address);
    case 8:
        return cratehoist_append_fingerprint(b.at, b.size);
    default:
        return cratehoist_append_message_integrity(b.at, b.size, part.at, part.size);
    }
}

/* An append to the message at the front of a buffer: what it was before decides what must hold after. */
static void appended(lent d, size_t room, int which, lent part, uint16_t kind)
{
    lent b = alone(d.at, d.size, room), was = alone(b.at, b.size, 0);
    size_t old = 20 + u16_at(b.at, b.size, 2);
    cratehoist_written w = append(which, b, part, kind);
    if (w.number) {
        MUST(w.size == 0 && same(b.at, was.at, b.size));
        MUST(w.number >= 21 && w.number <= 26 && w.number != 22);
        goto done;
    }
    MUST(old <= was.size && w.size > old && w.size <= b.size && w.size <= CRATEHOIST_LONGEST && u16_at(b.at, b.size, 2) == w.size - 20);
    MUST(same(b.at, was.at, 2) && same(b.at + 4, was.at + 4, old - 4) && same(b.at + w.size, was.at + w.size, b.size - w.size));
    lent now = alone(b.at, w.size, 0);
    cratehoist_step s = cratehoist_walk(now.at, now.size, old);
    MUST(s.what == CRATEHOIST_ATTRIBUTE && s.next == w.size);
    if (which >= RAW)
        MUST(cratehoist_refusal(s.kind, now.at + s.value, s.size) == 0);
    lent before = alone(was.at, old, 0);
    cratehoist_reading r = cratehoist_read(before.at, before.size), after = asked(now, part);
    if (r.what == CRATEHOIST_WHOLE && which >= RAW) {
        MUST(after.what == CRATEHOIST_WHOLE && after.count == r.count + 1);
        if (which == SIGN && !has(before, CRATEHOIST_MESSAGE_INTEGRITY))
            MUST(cratehoist_check_integrity(now.at, now.size, part.at, part.size) == 0);
        again(now, after);
    }
    free(before.at);
    free(now.at);
done:
    free(b.at);
    free(was.at);
}

static void one(const uint8_t *bytes, size_t size)
{
    lent d = alone(bytes, size, 0), copy = alone(bytes, size, 0);
    lent part = piece(bytes, size, 24, 140);
    uint16_t kind = u16_at(bytes, size, 20);
    cratehoist_reading r = asked(d, part);
    if (r.what == CRATEHOIST_WHOLE)
        again(d, r);
    sums(d, part);
    names(kind);
    cratehoist_walk(d.at, d.size, kind);
    /* two appends of the ten, chosen by the input itself, so that a run stays short and can be had again */
    uint32_t chance = cratehoist_crc32(d.at, d.size);
    appended(d, chance % 64, chance / 64 % APPENDS, part, kind);
    appended(d, 160, chance / 4096 % APPENDS, part, kind);
    MUST(same(d.at, copy.at, size));
    free(part.at);
    free(copy.at);
    free(d.at);
}

static uint16_t last_kind(lent d)
{
    uint16_t kind = 0;
    for (cratehoist_step s = cratehoist_walk(d.at, d.size, 20); s.what == CRATEHOIST_ATTRIBUTE;) {
        kind = s.kind;
        s = cratehoist_walk(d.at, d.size, s.next);
    }
    return kind;
}

/* A message that holds the input as a value, signed and fingerprinted: whole, however long. */
static void sealed(const uint8_t *bytes, size_t size)
{
    static const uint8_t zeros[3] = {0};
    lent part = piece(bytes, size, 0, size), key = piece(bytes, size, 4, 80), b = alone(NULL, 0, size + 24 + 7 + 24 + 8);
    cratehoist_id id = {{0}};
    memcpy(id.bytes, key.at ? key.at : zeros, key.size < 12 ? key.size : 0);
    uint16_t method = u16_at(bytes, size, 0) % 4096;
    MUST(cratehoist_begin(b.at, b.size, size % 4, method, id).size == 20);
    MUST(cratehoist_append_raw(b.at, b.size, 0xC001, part.at, part.size, zeros, (4 - part.size % 4) % 4).number == 0);
    MUST(cratehoist_append_message_integrity(b.at, b.size, key.at, key.size).number == 0);
    lent d = alone(b.at, cratehoist_append_fingerprint(b.at, b.size).size, 0);
    cratehoist_reading r = asked(d, key);
    MUST(r.what == CRATEHOIST_WHOLE && r.count == 3 && r.message_class == size % 4 && r.method == method);
    MUST(cratehoist_check_integrity(d.at, d.size, key.at, key.size) == 0);
    again(d, r);
    /* with four neighbouring bytes changed it isn't whole, unless a FINGERPRINT is no longer its last attribute */
    size_t place = cratehoist_crc32(part.at, part.size) % (d.size - 3);
    for (size_t i = place; i < place + 4; i++)
        d.at[i] = ~d.at[i];
    MUST(asked(d, key).what != CRATEHOIST_WHOLE || last_kind(d) != CRATEHOIST_FINGERPRINT);
    free(part.at);
    free(key.at);
    free(b.at);
    free(d.at);
}

/* A text, which ends where its memory does and starts anywhere. */
static void text(size_t start, size_t size, size_t wrong)
{
    lent l = alone(NULL, 0, start + size);
    if (size)
        memset(l.at + start, 'a', size);
    if (wrong < size)
        l.at[start + wrong] = 0xFF;
    const uint8_t *s = size ? l.at + start : NULL;
    MUST(cratehoist_is_utf8(s, size + (LIE == 3 && size)) == (wrong == size));
    MUST(cratehoist_refusal(CRATEHOIST_SOFTWARE, s, size) == (wrong == size ? 0 : 23));
    free(l.at);
}

/* Before the first input: every text of up to 80 bytes of ASCII, right and with a wrong byte at each place. */
int LLVMFuzzerInitialize(int *argc, char ***argv)
{
    (void)argc;
    (void)argv;
    for (size_t start = 0; start < 16; start++)
        for (size_t size = 0; size <= 80; size++)
            for (size_t wrong = 0; wrong <= size; wrong++)
                text(start, size, wrong);
    return 0;
}

/* Each input as it is, with its header made right so that the rest is reached too, and as a value in a message of ours. */
int LLVMFuzzerTestOneInput(const uint8_t *bytes, size_t size)
{
    one(bytes, size);
    sealed(bytes, size);
    if (size >= 20 && size <= 20 + 65535) {
        lent d = alone(bytes, size, 0);
        d.at[0] &= 0x3F;
        memcpy(d.at + 4, "\x21\x12\xA4\x42", 4);
        d.at[2] = (size - 20) >> 8;
        d.at[3] = (size - 20) & 0xFF;
        if (!same(d.at, bytes, size))
            one(d.at, size);
        free(d.at);
    }
    return 0;
}

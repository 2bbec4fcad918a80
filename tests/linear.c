/* linear CASE SIZE: makes a datagram of SIZE bytes, the worst of its kind, and writes it to standard output.
 * linear CASE < DATAGRAM: makes the case's call on it, once. Ends with 1 where the answer is not as it must be.
 * tests/linear counts the instructions of `counted`. */
#include "cratehoist.h"
#include <stdio.h>
#include <stdlib.h>
#include <string.h>

enum { ROOM = 64 }; /* behind the message, for what is appended */
static uint8_t d[CRATEHOIST_LONGEST + ROOM];
static size_t size;
static const uint8_t key[] = "key";
static const cratehoist_id id;

static void number(size_t place, unsigned value) {
    d[place] = (uint8_t)(value >> 8);
    d[place + 1] = (uint8_t)value;
}

/* An attribute of zeros; the header's length goes with it. */
static void attribute(uint16_t kind, size_t value) {
    number(size, kind);
    number(size + 2, (unsigned)value);
    size += 4 + (value + 3) / 4 * 4;
    number(2, (unsigned)(size - 20));
}

static void fingerprint(void) {
    size_t place = size;
    attribute(CRATEHOIST_FINGERPRINT, 4);
    uint32_t sum = cratehoist_crc32(d, place) ^ 0x5354554E; /* the length is already that with this attribute */
    number(place + 4, sum >> 16);
    number(place + 6, sum & 0xFFFF);
}

static void software(void) {
    size_t place = size + 4;
    attribute(CRATEHOIST_SOFTWARE, 126);
    for (size_t i = 0; i < 126; i += 2) memcpy(d + place + i, "\xCE\xBB", 2);
}

static void empty(void) { attribute(0x7FFE, 0); }

/* The same over and over, and one unknown attribute so that so many bytes are there with `left` more. */
static void fill(size_t end, size_t left, void (*more)(void), size_t step) {
    while (size + step + 4 + left <= end) more();
    attribute(0x7FFF, end - left - 4 - size);
}

static void message_integrity(void) { size = cratehoist_append_message_integrity(d, sizeof d, key, 3).size; }

static void make_prints(size_t end) { fill(end, 0, fingerprint, 8); }
static void make_empty(size_t end) { fill(end, 0, empty, 4); }
static void make_text(size_t end) { fill(end, 0, software, 132); }
static void make_signed(size_t end) {
    fill(end, 24, software, 132);
    message_integrity();
}

/* The calls. Each is told whether it went as it must. */
static bool reads(void) { return cratehoist_read(d, size).what == CRATEHOIST_WHOLE; }
static bool checks(void) { return cratehoist_check_integrity(d, size, key, 3) == 0; }
static bool finds(void) { return cratehoist_first_value(d, size, CRATEHOIST_MESSAGE_INTEGRITY).start == size - 20; }
static bool asks(void) { return !cratehoist_realm(d, size, key, 3).there; }
static bool appends(void) { return cratehoist_append_raw(d, sizeof d, 0x7FFD, key, 0, NULL, 0).size == size + 4; }
static bool signs(void) { return cratehoist_append_message_integrity(d, sizeof d, key, 3).size == size + 24; }
static bool seals(void) { return cratehoist_append_fingerprint(d, sizeof d).size == size + 8; }

static const struct {
    const char *name;
    void (*make)(size_t);
    bool (*call)(void);
} CASES[] = {
    {"read-fingerprints", make_prints, reads},
    {"read-empty", make_empty, reads},
    {"read-text", make_text, reads},
    {"read-signed", make_signed, reads},
    {"check-integrity", make_signed, checks},
    {"first-value", make_signed, finds},
    {"realm", make_empty, asks},
    {"append-raw", make_empty, appends},
    {"append-message-integrity", make_empty, signs},
    {"append-fingerprint", make_empty, seals},
};

__attribute__((noinline)) bool counted(size_t i) {
    return CASES[i].call();
}

int main(int count, char **words) {
    size_t cases = sizeof CASES / sizeof *CASES;
    if (count == 1) { /* the names */
        for (size_t i = 0; i < cases; i++) puts(CASES[i].name);
        return 0;
    }
    for (size_t i = 0; i < cases; i++) {
        if (strcmp(words[1], CASES[i].name) != 0) continue;
        if (count == 2) {
            size = fread(d, 1, CRATEHOIST_LONGEST, stdin);
            return counted(i) ? 0 : 1;
        }
        size = cratehoist_begin(d, sizeof d, CRATEHOIST_SUCCESS_RESPONSE, CRATEHOIST_BINDING, id).size;
        CASES[i].make(strtoul(words[2], NULL, 10));
        return fwrite(d, 1, size, stdout) == size ? 0 : 1;
    }
    return 2;
}

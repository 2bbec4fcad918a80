/* Cratehoist: a STUN codec (RFC 5389), proved. For C99 and later, and C++.
 *
 * Link libcratehoist.a, which `tools/native-lib cratehoist` makes; it needs memcpy and memset only.
 *
 * No call allocates, keeps a pointer, or asks anything of its caller but this: a pointer has as many bytes behind it as the
 * size that follows it says (NULL with size 0 is an empty one), and a buffer that is written overlaps no other argument.
 *
 * Numbers are those of docs/NUMBERS.md; 0 says that all is well. Where a struct begins with `number`, its other fields are
 * nought unless that is 0, if not said otherwise. A part is told by where it starts in the bytes that were lent, and its size.
 * Classes are 0 request, 1 indication, 2 success response, 3 error response. Families are 1 for IPv4 and 2 for IPv6. A kind is
 * an attribute's type. What each call equals is in docs/PROMISES.md.
 */
#ifndef CRATEHOIST_H
#define CRATEHOIST_H

#include <stdbool.h>
#include <stddef.h>
#include <stdint.h>

#ifdef __cplusplus
extern "C" {
#endif

enum {
    CRATEHOIST_REQUEST = 0,
    CRATEHOIST_INDICATION = 1,
    CRATEHOIST_SUCCESS_RESPONSE = 2,
    CRATEHOIST_ERROR_RESPONSE = 3
};

enum { CRATEHOIST_BINDING = 1 };

enum {
    CRATEHOIST_MAPPED_ADDRESS = 0x0001,
    CRATEHOIST_USERNAME = 0x0006,
    CRATEHOIST_MESSAGE_INTEGRITY = 0x0008,
    CRATEHOIST_ERROR_CODE = 0x0009,
    CRATEHOIST_UNKNOWN_ATTRIBUTES = 0x000A,
    CRATEHOIST_REALM = 0x0014,
    CRATEHOIST_NONCE = 0x0015,
    CRATEHOIST_XOR_MAPPED_ADDRESS = 0x0020,
    CRATEHOIST_SOFTWARE = 0x8022,
    CRATEHOIST_ALTERNATE_SERVER = 0x8023,
    CRATEHOIST_FINGERPRINT = 0x8028
};

enum { CRATEHOIST_IPV4 = 1, CRATEHOIST_IPV6 = 2 };

/* The `what` of a reading and of a step. */
enum { CRATEHOIST_WHOLE = 0, CRATEHOIST_BROKEN = 1, CRATEHOIST_REFUSED = 2 };
enum { CRATEHOIST_ATTRIBUTE = 0, CRATEHOIST_END = 1, CRATEHOIST_CUT = 2 };

/* No message is longer. */
#define CRATEHOIST_LONGEST 65552u

/* A transaction ID. */
typedef struct cratehoist_id {
    uint8_t bytes[12];
} cratehoist_id;

/* An address; an IP of 4 bytes stands in the first four. */
typedef struct cratehoist_address {
    uint8_t family;
    uint16_t port;
    uint8_t ip[16];
} cratehoist_address;

typedef struct cratehoist_digest {
    uint8_t bytes[20];
} cratehoist_digest;

typedef struct cratehoist_xor_form {
    uint8_t number;
    cratehoist_address address;
} cratehoist_xor_form;

/* An attribute: its value is `size` bytes from `value` on, and the next attribute starts at `next`. Of the end and the cut only
 * the place is told. */
typedef struct cratehoist_step {
    uint8_t what;
    uint16_t kind;
    size_t place;
    size_t value;
    size_t size;
    size_t next;
} cratehoist_step;

/* Whole: class, method, ID and the count of attributes. Broken: class, method, ID, the number, and the place of the attribute
 * at fault. Refused: the number. */
typedef struct cratehoist_reading {
    uint8_t what;
    uint8_t number;
    uint16_t message_class;
    uint16_t method;
    size_t count;
    size_t place;
    cratehoist_id id;
} cratehoist_reading;

/* The first attribute of a type: where it starts, and the size of its value, which stands four bytes behind. */
typedef struct cratehoist_first {
    bool there;
    size_t place;
    size_t size;
} cratehoist_first;

typedef struct cratehoist_part {
    bool there;
    size_t start;
    size_t size;
} cratehoist_part;

/* What a value says. An address: family, port and IP. An error code: the code, the 21 reserved bits as a number, and the phrase as
 * the part. Else the value itself is the part. */
typedef struct cratehoist_typed {
    uint8_t number;
    uint8_t family;
    uint16_t port;
    uint16_t code;
    uint32_t reserved;
    uint8_t ip[16];
    size_t start;
    size_t size;
} cratehoist_typed;

/* The message's size from now on. */
typedef struct cratehoist_written {
    uint8_t number;
    size_t size;
} cratehoist_written;

/* The first `size` bytes of the text; none where there is no name. */
typedef struct cratehoist_name {
    uint8_t text[32];
    size_t size;
} cratehoist_name;

/* ---- reading ---- */

/* Reads a datagram: whole, broken or refused; 1 to 4, 10 to 15. */
cratehoist_reading cratehoist_read(const uint8_t *datagram, size_t datagram_size);

/* What stands at a place of a datagram: start at 20 and go on at `next`. Value rules are not applied; a broken datagram is
 * walked up to its cut. */
cratehoist_step cratehoist_walk(const uint8_t *datagram, size_t datagram_size, size_t place);

/* The value of the first attribute of a type in a whole datagram, as a part of it; in one that is not whole every type is absent.
 * cratehoist_search asks the walk alone, of any bytes, and tells where the attribute stands. */
cratehoist_part cratehoist_first_value(const uint8_t *datagram, size_t datagram_size, uint16_t kind);
cratehoist_first cratehoist_search(const uint8_t *bytes, size_t bytes_size, uint16_t kind);

/* What a value says, or 11 to 14. The ID is the message's; only XOR-MAPPED-ADDRESS needs it. The part is one of the value. */
cratehoist_typed cratehoist_typed_value(uint16_t kind, const uint8_t *value, size_t value_size, cratehoist_id id);

/* The XOR form of an address, and of an XOR form the address. A family that is neither 1 nor 2 is 12. */
cratehoist_xor_form cratehoist_address_xor(cratehoist_address address, cratehoist_id id);

/* The realm to use: where `there`, a part of the datagram, the value of its first REALM; else all of the configured one. */
cratehoist_part cratehoist_realm(const uint8_t *datagram, size_t datagram_size, const uint8_t *configured, size_t configured_size);

/* 0 where the first MESSAGE-INTEGRITY is right under the key; else the reader's number, 31 or 32. It speaks for the bytes
 * before that attribute. */
uint8_t cratehoist_check_integrity(const uint8_t *datagram, size_t datagram_size, const uint8_t *key, size_t key_size);

/* ---- writing: a refusal changes no byte of the buffer ---- */

/* Writes a header with no attributes: 22 for a class above 3 or a method above 4,095, 26 for fewer than 20 bytes. */
cratehoist_written cratehoist_begin(uint8_t *buffer, size_t buffer_size, uint16_t message_class, uint16_t method, cratehoist_id id);

/* Appends to the message at the front of the buffer an attribute of any type, with its value and padding as given: 21, 24, 25, 26. */
cratehoist_written cratehoist_append_raw(uint8_t *buffer, size_t buffer_size, uint16_t kind, const uint8_t *value, size_t value_size, const uint8_t *padding, size_t padding_size);

/* Appends USERNAME, REALM, NONCE or SOFTWARE: 21, 23, 25, 26. Another kind is 23. */
cratehoist_written cratehoist_append_text(uint8_t *buffer, size_t buffer_size, uint16_t kind, const uint8_t *text, size_t text_size);

/* Appends MAPPED-ADDRESS, XOR-MAPPED-ADDRESS or ALTERNATE-SERVER; the address is given plain: 21, 23, 25, 26. Another kind, or a
 * family that is neither 1 nor 2, is 23. */
cratehoist_written cratehoist_append_address(uint8_t *buffer, size_t buffer_size, uint16_t kind, cratehoist_address address);

/* Appends ERROR-CODE, of a code from 300 to 699 and a reserved number up to 2,097,151, which is 0 but for one that was read:
 * 21, 23, 25, 26. */
cratehoist_written cratehoist_append_error_code(uint8_t *buffer, size_t buffer_size, uint16_t code, uint32_t reserved, const uint8_t *phrase, size_t phrase_size);

/* Appends UNKNOWN-ATTRIBUTES: types of two bytes each, the first the higher: 21, 23, 25, 26. */
cratehoist_written cratehoist_append_unknown_attributes(uint8_t *buffer, size_t buffer_size, const uint8_t *types, size_t types_size);

/* Append MESSAGE-INTEGRITY under a key, and FINGERPRINT, each summed where it goes: 21, 25, 26. */
cratehoist_written cratehoist_append_message_integrity(uint8_t *buffer, size_t buffer_size, const uint8_t *key, size_t key_size);
cratehoist_written cratehoist_append_fingerprint(uint8_t *buffer, size_t buffer_size);

/* 23 where the list of types refuses a value, as a typed append would; else 0. Writes nothing. */
uint8_t cratehoist_refusal(uint16_t kind, const uint8_t *value, size_t value_size);

/* ---- sums and text ---- */

/* CRC-32. */
uint32_t cratehoist_crc32(const uint8_t *bytes, size_t bytes_size);

/* SHA-1 and HMAC-SHA-1; cratehoist_hmac_front is that of the bytes before a place, with `length` in the header's length field. */
cratehoist_digest cratehoist_sha1(const uint8_t *bytes, size_t bytes_size);
cratehoist_digest cratehoist_hmac(const uint8_t *key, size_t key_size, const uint8_t *bytes, size_t bytes_size);
cratehoist_digest cratehoist_hmac_front(const uint8_t *key, size_t key_size, const uint8_t *datagram, size_t datagram_size, size_t place, uint16_t length);

/* Is it UTF-8. */
bool cratehoist_is_utf8(const uint8_t *bytes, size_t bytes_size);

/* ---- for a person ---- */

/* Names of attribute types, error codes, the numbers of docs/NUMBERS.md, classes and methods. */
cratehoist_name cratehoist_attribute_name(uint16_t kind);
cratehoist_name cratehoist_code_name(uint16_t code);
cratehoist_name cratehoist_number_name(uint8_t number);
cratehoist_name cratehoist_class_name(uint16_t message_class);
cratehoist_name cratehoist_method_name(uint16_t method);

#ifdef __cplusplus
}
#endif

#endif

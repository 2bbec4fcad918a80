/* A Binding request written, and a response read. Ends with 0 where all went as it must.
 *
 *   cc -std=c99 -I include examples/c/binding.c "$(tools/native-lib cratehoist)" -o target/binding && target/binding
 */
#include <cratehoist.h>
#include <stdio.h>
#include <string.h>

static const cratehoist_id ID = {{0, 1, 2, 3, 4, 5, 6, 7, 8, 9, 10, 11}};

/* Writes a Binding request with SOFTWARE and FINGERPRINT; its size, or 0 where a call refused. */
static size_t request(uint8_t *buffer, size_t room) {
    const char *name = "cratehoist";
    cratehoist_written w = cratehoist_begin(buffer, room, CRATEHOIST_REQUEST, CRATEHOIST_BINDING, ID);
    if (w.number == 0)
        w = cratehoist_append_text(buffer, room, CRATEHOIST_SOFTWARE, (const uint8_t *)name, strlen(name));
    if (w.number == 0)
        w = cratehoist_append_fingerprint(buffer, room);
    if (w.number != 0)
        printf("request refused by %u\n", w.number);
    return w.size;
}

/* Reads a response to it and shows the address that the server saw; the number, 0 where all is well. */
static unsigned response(const uint8_t *datagram, size_t size) {
    cratehoist_reading r = cratehoist_read(datagram, size);
    if (r.what != CRATEHOIST_WHOLE) {
        printf("number %u at place %zu\n", r.number, r.place);
        return r.number;
    }
    if (memcmp(r.id.bytes, ID.bytes, sizeof ID.bytes) != 0 || r.message_class != CRATEHOIST_SUCCESS_RESPONSE) {
        printf("not the answer to our request\n");
        return 0;
    }
    cratehoist_part p = cratehoist_first_value(datagram, size, CRATEHOIST_XOR_MAPPED_ADDRESS);
    if (p.there) {
        cratehoist_typed t = cratehoist_typed_value(CRATEHOIST_XOR_MAPPED_ADDRESS, datagram + p.start, p.size, r.id);
        if (t.family == CRATEHOIST_IPV4)
            printf("seen as %u.%u.%u.%u port %u\n", t.ip[0], t.ip[1], t.ip[2], t.ip[3], t.port);
    }
    return 0;
}

int main(void) {
    uint8_t buffer[128];
    size_t size = request(buffer, sizeof buffer);
    for (size_t i = 0; i < size; i++)
        printf("%02x", buffer[i]);
    printf("\n");

    /* what a server answers: 192.0.2.1 port 32853 */
    static const uint8_t answer[] = {0x01, 0x01, 0x00, 0x0C, 0x21, 0x12, 0xA4, 0x42, 0,    1,    2,    3,    4,    5,    6,    7,
                                     8,    9,    10,   11,   0x00, 0x20, 0x00, 0x08, 0x00, 0x01, 0xA1, 0x47, 0xE1, 0x12, 0xA6, 0x43};
    unsigned well = response(answer, sizeof answer);

    /* the same with its last byte missing */
    unsigned cut = response(answer, sizeof answer - 1);

    cratehoist_reading own = cratehoist_read(buffer, size);
    return own.what == CRATEHOIST_WHOLE && own.count == 2 && well == 0 && cut == 4 ? 0 : 1;
}

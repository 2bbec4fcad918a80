/* libnice as a peer. `write`: descriptions in, messages out; `read`: the other way; `judge`: what it says to each datagram. */
#include <arpa/inet.h>
#include <stdbool.h>
#include <stdio.h>
#include <stdlib.h>
#include <string.h>
#include <stun/stunagent.h>

static const uint16_t known[] = {
    STUN_ATTRIBUTE_MAPPED_ADDRESS, STUN_ATTRIBUTE_USERNAME, STUN_ATTRIBUTE_MESSAGE_INTEGRITY, STUN_ATTRIBUTE_ERROR_CODE,
    STUN_ATTRIBUTE_UNKNOWN_ATTRIBUTES, STUN_ATTRIBUTE_REALM, STUN_ATTRIBUTE_NONCE, STUN_ATTRIBUTE_XOR_MAPPED_ADDRESS,
    STUN_ATTRIBUTE_PRIORITY, 0};

static uint8_t key[256];
static size_t key_size;

static size_t unhex(const char *text, uint8_t *to, size_t most)
{
    size_t size = 0;
    unsigned byte;
    if (strcmp(text, "-") == 0)
        return 0;
    for (; size < most && sscanf(text, "%2x", &byte) == 1; text += 2)
        to[size++] = byte;
    return size;
}

static FILE *out; /* what is shown of a message; only judging throws it away */

static void show_hex(const uint8_t *bytes, size_t size)
{
    for (size_t i = 0; i < size; i++)
        fprintf(out, "%02x", bytes[i]);
}

static void take_key(const char *text)
{
    key_size = unhex(text, key, sizeof key);
}

/* HOST:PORT or [HOST]:PORT */
static socklen_t address_of(char *text, struct sockaddr_storage *to)
{
    char *colon = strrchr(text, ':');
    memset(to, 0, sizeof *to);
    *colon = 0;
    if (*text == '[') {
        struct sockaddr_in6 *six = (struct sockaddr_in6 *)to;
        colon[-1] = 0;
        six->sin6_family = AF_INET6;
        six->sin6_port = htons(atoi(colon + 1));
        return inet_pton(AF_INET6, text + 1, &six->sin6_addr) == 1 ? sizeof *six : 0;
    }
    struct sockaddr_in *four = (struct sockaddr_in *)to;
    four->sin_family = AF_INET;
    four->sin_port = htons(atoi(colon + 1));
    return inet_pton(AF_INET, text, &four->sin_addr) == 1 ? sizeof *four : 0;
}

static void show_address(const char *name, const struct sockaddr_storage *from)
{
    char host[INET6_ADDRSTRLEN];
    const struct sockaddr_in6 *six = (const struct sockaddr_in6 *)from;
    const struct sockaddr_in *four = (const struct sockaddr_in *)from;
    if (from->ss_family == AF_INET6)
        fprintf(out, "\t%s=[%s]:%u", name, inet_ntop(AF_INET6, &six->sin6_addr, host, sizeof host), ntohs(six->sin6_port));
    else
        fprintf(out, "\t%s=%s:%u", name, inet_ntop(AF_INET, &four->sin_addr, host, sizeof host), ntohs(four->sin_port));
}

static const struct {
    const char *name;
    StunAttribute type;
    enum { TEXT, ADDRESS, XOR_ADDRESS } form;
} kinds[] = {
    {"username", STUN_ATTRIBUTE_USERNAME, TEXT},
    {"realm", STUN_ATTRIBUTE_REALM, TEXT},
    {"nonce", STUN_ATTRIBUTE_NONCE, TEXT},
    {"software", STUN_ATTRIBUTE_SOFTWARE, TEXT},
    {"mapped-address", STUN_ATTRIBUTE_MAPPED_ADDRESS, ADDRESS},
    {"alternate-server", STUN_ATTRIBUTE_ALTERNATE_SERVER, ADDRESS},
    {"xor-mapped-address", STUN_ATTRIBUTE_XOR_MAPPED_ADDRESS, XOR_ADDRESS},
};
enum { KINDS = sizeof kinds / sizeof *kinds };

/* Appends one described attribute. The two sums are added by stun_agent_finish_message. */
static bool append(StunMessage *m, char *attribute)
{
    char *value = strchr(attribute, '=');
    struct sockaddr_storage address;
    uint8_t bytes[600];
    if (!value)
        return true;
    *value++ = 0;
    for (int i = 0; i < KINDS; i++) {
        if (strcmp(attribute, kinds[i].name) != 0)
            continue;
        if (kinds[i].form == TEXT)
            return stun_message_append_string(m, kinds[i].type, value) == STUN_MESSAGE_RETURN_SUCCESS;
        socklen_t size = address_of(value, &address);
        const struct sockaddr *plain = (const struct sockaddr *)&address;
        if (kinds[i].form == ADDRESS)
            return stun_message_append_addr(m, kinds[i].type, plain, size) == STUN_MESSAGE_RETURN_SUCCESS;
        return stun_message_append_xor_addr(m, kinds[i].type, &address, size) == STUN_MESSAGE_RETURN_SUCCESS;
    }
    if (strcmp(attribute, "error-code") == 0) {
        int code = atoi(value);
        char *phrase = strchr(value, ':') + 1;
        if (strcmp(phrase, stun_strerror(code)) == 0)
            return stun_message_append_error(m, code) == STUN_MESSAGE_RETURN_SUCCESS;
        /* stun_message_append_error has a phrase of its own for each code */
        int size = snprintf((char *)bytes, sizeof bytes, "    %s", phrase);
        memcpy(bytes, (uint8_t[]){0, 0, code / 100, code % 100}, 4);
        return stun_message_append_bytes(m, STUN_ATTRIBUTE_ERROR_CODE, bytes, size) == STUN_MESSAGE_RETURN_SUCCESS;
    }
    if (strcmp(attribute, "unknown-attributes") == 0) {
        size_t size = 0;
        for (char *type = strtok(value, ","); type; type = strtok(NULL, ","), size += 2)
            unhex(type, bytes + size, 2);
        return stun_message_append_bytes(m, STUN_ATTRIBUTE_UNKNOWN_ATTRIBUTES, bytes, size) == STUN_MESSAGE_RETURN_SUCCESS;
    }
    if (strcmp(attribute, "raw") == 0) {
        char *colon = strchr(value, ':');
        size_t size = unhex(colon + 1, bytes, sizeof bytes);
        return stun_message_append_bytes(m, strtoul(value, NULL, 16), bytes, size) == STUN_MESSAGE_RETURN_SUCCESS;
    }
    return false;
}


/* Begins a message with an ID of our choice: libnice's own calls make one up. Its IDs have 16 bytes, the cookie first. */
static bool begin(StunAgent *agent, StunMessage *m, uint8_t *buffer, size_t size, int class, int method, const uint8_t *id)
{
    StunTransactionId whole = {0x21, 0x12, 0xA4, 0x42};
    memcpy(whole + 4, id, 12);
    memset(m, 0, sizeof *m);
    m->agent = agent;
    m->buffer = buffer;
    m->buffer_len = size;
    return stun_message_init(m, class, method, whole);
}

/* NAME CLASS METHOD ID KEY ATTRIBUTE.. */
static bool write_one(char **field, int fields)
{
    StunAgent agent;
    StunMessage m;
    uint8_t buffer[4096], id[12];
    bool sign = false, print = false;
    if (fields < 5)
        return false;
    for (int i = 5; i < fields; i++) {
        sign |= strcmp(field[i], "integrity") == 0;
        print |= strcmp(field[i], "fingerprint") == 0;
    }
    stun_agent_init(&agent, known, STUN_COMPATIBILITY_RFC5389,
        STUN_AGENT_USAGE_SHORT_TERM_CREDENTIALS | (print ? STUN_AGENT_USAGE_USE_FINGERPRINT : 0));
    unhex(field[3], id, sizeof id);
    take_key(field[4]);
    bool good = begin(&agent, &m, buffer, sizeof buffer, atoi(field[1]), atoi(field[2]), id);
    for (int i = 5; good && i < fields; i++)
        good = append(&m, field[i]);
    size_t size = good ? stun_agent_finish_message(&agent, &m, sign ? key : NULL, sign ? key_size : 0) : 0;
    fprintf(out, "%s\t%s\t", field[0], field[4]);
    show_hex(buffer, size);
    return size != 0;
}

static bool validater(StunAgent *agent, StunMessage *m, uint8_t *name, uint16_t size, uint8_t **password, size_t *password_size, void *data)
{
    (void)agent, (void)m, (void)name, (void)size, (void)data;
    *password = key;
    *password_size = key_size;
    return true;
}

/* Asks libnice about a datagram. A response is taken only by an agent that has sent a request with its ID, so it has. */
static StunValidationStatus ask(StunAgent *agent, StunMessage *m, const uint8_t *d, size_t size, StunAgentUsageFlags flags)
{
    StunMessage request;
    uint8_t buffer[256];
    stun_agent_init(agent, known, STUN_COMPATIBILITY_RFC5389, STUN_AGENT_USAGE_SHORT_TERM_CREDENTIALS | flags);
    if (size >= 20) {
        StunMessage told = {.agent = agent, .buffer = (uint8_t *)d, .buffer_len = size};
        begin(agent, &request, buffer, sizeof buffer, STUN_REQUEST, stun_message_get_method(&told), d + 8);
        stun_agent_finish_message(agent, &request, key, key_size);
    }
    return stun_agent_validate(agent, m, d, size, validater, NULL);
}

/* FINGERPRINT is looked at if there is one, the integrity if there is a key. */
static bool takes(StunAgent *agent, StunMessage *m, const uint8_t *d, size_t size)
{
    StunAgentUsageFlags flags = key_size ? 0 : STUN_AGENT_USAGE_IGNORE_CREDENTIALS;
    StunValidationStatus first = ask(agent, m, d, size, flags);
    if (first == STUN_VALIDATION_NOT_STUN || first == STUN_VALIDATION_INCOMPLETE_STUN)
        return false;
    if (stun_message_has_attribute(m, STUN_ATTRIBUTE_FINGERPRINT))
        flags |= STUN_AGENT_USAGE_USE_FINGERPRINT;
    return ask(agent, m, d, size, flags) == STUN_VALIDATION_SUCCESS;
}

static bool show(const StunMessage *m, StunAttribute type, const uint8_t *value, uint16_t size)
{
    struct sockaddr_storage address = {0};
    socklen_t room = sizeof address;
    char text[1024];
    int code;
    for (int i = 0; i < KINDS; i++) {
        if (kinds[i].type != type)
            continue;
        if (kinds[i].form == TEXT) {
            if (stun_message_find_string(m, type, text, sizeof text) != STUN_MESSAGE_RETURN_SUCCESS)
                return false;
            fprintf(out, "\t%s=%s", kinds[i].name, text);
            return true;
        }
        StunMessageReturn found = kinds[i].form == ADDRESS ? stun_message_find_addr(m, type, &address, &room)
                                                           : stun_message_find_xor_addr(m, type, &address, &room);
        if (found == STUN_MESSAGE_RETURN_SUCCESS)
            show_address(kinds[i].name, &address);
        return found == STUN_MESSAGE_RETURN_SUCCESS;
    }
    switch ((int)type) {
    case STUN_ATTRIBUTE_ERROR_CODE:
        if (stun_message_find_error(m, &code) != STUN_MESSAGE_RETURN_SUCCESS)
            return false;
        fprintf(out, "\terror-code=%d:%.*s", code, size - 4, value + 4);
        return true;
    case STUN_ATTRIBUTE_UNKNOWN_ATTRIBUTES:
        for (uint16_t at = 0; at + 1 < size; at += 2)
            fprintf(out, "%s%02x%02x", at ? "," : "\tunknown-attributes=", value[at], value[at + 1]);
        return true;
    case STUN_ATTRIBUTE_MESSAGE_INTEGRITY:
        fprintf(out, "\tintegrity");
        return true;
    case STUN_ATTRIBUTE_FINGERPRINT:
        fprintf(out, "\tfingerprint");
        return true;
    }
    fprintf(out, "\traw=%04x:", type);
    show_hex(value, size);
    return true;
}

/* libnice has no walk: every type is asked for, and shown in the order in which they lie. */
static bool show_all(const StunMessage *m, const uint8_t *d)
{
    for (const uint8_t *last = d;;) {
        const uint8_t *next = NULL;
        uint16_t next_size = 0;
        unsigned next_type = 0;
        for (unsigned type = 0; type <= 0xFFFF; type++) {
            uint16_t size;
            const uint8_t *value = stun_message_find(m, type, &size);
            if (value && value > last && (!next || value < next)) {
                next = value;
                next_size = size;
                next_type = type;
            }
        }
        if (!next)
            return true;
        if (!show(m, next_type, next, next_size))
            return false;
        last = next;
    }
}

/* NAME KEY DATAGRAM: whether libnice takes the message and its own calls get each value */
static bool read_one(char **field, int fields)
{
    static uint8_t d[65556];
    StunAgent agent;
    StunMessage m;
    StunTransactionId id;
    if (fields < 3)
        return false;
    take_key(field[1]);
    if (!takes(&agent, &m, d, unhex(field[2], d, sizeof d)))
        return false;
    stun_message_id(&m, id);
    fprintf(out, "%s\t%d\t%d\t", field[0], stun_message_get_class(&m), stun_message_get_method(&m));
    show_hex(id + 4, 12);
    fprintf(out, "\t%s", field[1]);
    return show_all(&m, d);
}

int main(int arguments, char **argument)
{
    static char line[200000];
    char *field[64], *shown = NULL;
    size_t size;
    const char *mode = arguments == 2 ? argument[1] : "";
    if (strcmp(mode, "write") != 0 && strcmp(mode, "read") != 0 && strcmp(mode, "judge") != 0)
        return 2;
    while (fgets(line, sizeof line, stdin)) {
        int fields = 0;
        line[strcspn(line, "\n")] = 0;
        for (char *rest = line, *next; fields < 64 && (next = strsep(&rest, "\t"));)
            field[fields++] = next;
        out = open_memstream(&shown, &size);
        bool good = strcmp(mode, "write") == 0 ? write_one(field, fields) : read_one(field, fields);
        fclose(out);
        if (strcmp(mode, "judge") == 0)
            printf("%s\t%s\n", field[0], good ? "takes" : "refuses");
        else if (good)
            printf("%s\n", shown);
        else
            printf("%s\tcan't\n", field[0]);
        free(shown);
    }
    return 0;
}

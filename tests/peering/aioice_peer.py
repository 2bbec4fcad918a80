"""aioice as a peer. `write`: descriptions in, messages out; `read`: the other way; `judge`: what it says to each datagram."""

import socket
import struct
import sys

from aioice import stun

CLASSES = {0: stun.Class.REQUEST, 1: stun.Class.INDICATION, 2: stun.Class.RESPONSE, 3: stun.Class.ERROR}
NAMES = {
    "mapped-address": "MAPPED-ADDRESS",
    "username": "USERNAME",
    "error-code": "ERROR-CODE",
    "realm": "REALM",
    "nonce": "NONCE",
    "xor-mapped-address": "XOR-MAPPED-ADDRESS",
    "software": "SOFTWARE",
}


def address(text):
    host, port = text.rsplit(":", 1)
    return host.strip("[]"), int(port)


def write(name, described):
    message_class, method, transaction_id, key, *attributes = described
    message = stun.Message(
        message_method=stun.Method(int(method)),
        message_class=CLASSES[int(message_class)],
        transaction_id=bytes.fromhex(transaction_id),
    )
    for attribute in attributes:
        kind, _, value = attribute.partition("=")
        if kind == "integrity":
            message.add_message_integrity(bytes.fromhex(key.strip("-")))  # it adds FINGERPRINT too
            if "fingerprint" not in attributes:
                del message.attributes["FINGERPRINT"]
        elif kind == "fingerprint":
            message.attributes.pop("FINGERPRINT", None)
            message.attributes["FINGERPRINT"] = stun.message_fingerprint(bytes(message))
        elif kind == "error-code":
            code, _, phrase = value.partition(":")
            message.attributes["ERROR-CODE"] = (int(code), phrase)
        elif kind.endswith("address"):
            message.attributes[NAMES[kind]] = address(value)
        elif kind == "nonce":
            message.attributes["NONCE"] = value.encode()
        else:
            message.attributes[NAMES[kind]] = value
    return [name, key, bytes(message).hex()]


def shown(kind, value):
    if kind == "MESSAGE-INTEGRITY":
        return "integrity"
    if kind == "FINGERPRINT":
        return "fingerprint"
    if kind == "ERROR-CODE":
        return "error-code=%d:%s" % value
    if kind.endswith("ADDRESS"):
        host, port = value
        if ":" in host:  # the same spelling as the others
            host = "[%s]" % socket.inet_ntop(socket.AF_INET6, socket.inet_pton(socket.AF_INET6, host))
        return "%s=%s:%d" % (kind.lower(), host, port)
    if isinstance(value, bytes):
        value = value.decode()
    return "%s=%s" % (kind.lower(), value)


def read(name, told):
    key, datagram = told
    message = stun.parse_message(bytes.fromhex(datagram), integrity_key=None if key == "-" else bytes.fromhex(key))
    number = {v: k for k, v in CLASSES.items()}[message.message_class]
    shows = [shown(kind, value) for kind, value in message.attributes.items()]
    return [name, str(number), str(int(message.message_method)), message.transaction_id.hex(), key] + shows


def judge(name, told):
    read(name, told)
    return [name, "takes"]


def main():
    work = {"write": write, "read": read, "judge": judge}[sys.argv[1]]
    for line in sys.stdin.buffer.read().decode().splitlines():
        name, *rest = line.split("\t")
        try:
            said = work(name, rest)
        except (ValueError, KeyError, struct.error):  # its own callers expect the first only
            said = [name, "refuses" if work is judge else "can't"]
        print("\t".join(said))


main()

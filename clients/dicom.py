"""A requestor of DICOM associations, for the scripts that try and measure the archive (PS3.7, PS3.8).

It says what it is told to say, and reads what comes back: it is no product.
"""
import socket
import struct

IMPLICIT = "1.2.840.10008.1.2"
EXPLICIT = "1.2.840.10008.1.2.1"
VERIFICATION = "1.2.840.10008.1.1"
CT_IMAGE = "1.2.840.10008.5.1.4.1.1.2"
KEY_OBJECT = "1.2.840.10008.5.1.4.1.1.88.59"
STUDY_ROOT_FIND = "1.2.840.10008.5.1.4.1.2.2.1"
STUDY_ROOT_GET = "1.2.840.10008.5.1.4.1.2.2.3"

LONG = {b"OB", b"OW", b"OF", b"SQ", b"UN", b"UT"}


def uid(text):
    raw = text.encode("ascii")
    return raw + b"\0" * (len(raw) % 2)


def padded(text):
    raw = text.encode("ascii") if isinstance(text, str) else text
    return raw + b" " * (len(raw) % 2)


def element(tag, vr, value, explicit):
    """One element with a value of bytes."""
    head = struct.pack("<HH", tag >> 16, tag & 0xFFFF)
    if not explicit:
        return head + struct.pack("<I", len(value)) + value
    if vr in LONG:
        return head + vr + b"\0\0" + struct.pack("<I", len(value)) + value
    return head + vr + struct.pack("<H", len(value)) + value


def image(study, series, instance, patient, name, pixels=b"", explicit=False, extra=()):
    """The data set of a CT image."""
    parts = [
        (0x00080016, b"UI", uid(CT_IMAGE)),
        (0x00080018, b"UI", uid(instance)),
        (0x00080060, b"CS", b"CT"),
        (0x00100010, b"PN", padded(name)),
        (0x00100020, b"LO", padded(patient)),
        (0x0020000D, b"UI", uid(study)),
        (0x0020000E, b"UI", uid(series)),
    ]
    parts += list(extra)
    if pixels:
        parts.append((0x7FE00010, b"OW", pixels))
    return b"".join(element(t, v, b, explicit) for t, v, b in sorted(parts))


def elements(data, explicit=False):
    """The values of a flat data set by tag; a sequence of undefined length is left out."""
    found, at = {}, 0
    while at + 8 <= len(data):
        group, number = struct.unpack_from("<HH", data, at)
        tag = group << 16 | number
        vr = data[at + 4:at + 6]
        if explicit and vr in LONG:
            size, at = struct.unpack_from("<I", data, at + 8)[0], at + 12
        elif explicit:
            size, at = struct.unpack_from("<H", data, at + 6)[0], at + 8
        else:
            size, at = struct.unpack_from("<I", data, at + 4)[0], at + 8
        if size == 0xFFFFFFFF:
            end = data.find(b"\xfe\xff\xdd\xe0\0\0\0\0", at)
            at = len(data) if end < 0 else end + 8
            continue
        found[tag] = data[at:at + size]
        at += size
    return found


def part10(data, instance, explicit, sop_class=CT_IMAGE):
    """A file of PS3.10 with this data set."""
    meta = b"".join([
        element(0x00020001, b"OB", b"\0\1", True),
        element(0x00020002, b"UI", uid(sop_class), True),
        element(0x00020003, b"UI", uid(instance), True),
        element(0x00020010, b"UI", uid(EXPLICIT if explicit else IMPLICIT), True),
        element(0x00020012, b"UI", uid("2.25.1"), True),
    ])
    size = element(0x00020000, b"UL", struct.pack("<I", len(meta)), True)
    return b"\0" * 128 + b"DICM" + size + meta + data


def of_part10(raw):
    """The transfer syntax and the data set of a file of PS3.10."""
    size = struct.unpack_from("<I", raw, 140)[0]
    meta = elements(raw[144:144 + size], True)
    return meta[0x00020010].rstrip(b"\0").decode(), raw[144 + size:]


def command(fields):
    """A command set, with its group length."""
    body = b"".join(
        struct.pack("<HHI", 0, tag, len(value)) + value for tag, value in sorted(fields.items()))
    return struct.pack("<HHII", 0, 0, 4, len(body)) + body


def short(number):
    return struct.pack("<H", number)


class Refused(Exception):
    """The peer rejected, aborted or closed."""


class Association:
    """An association that was accepted. `contexts` has the accepted ones: id to (class, syntax)."""

    def __init__(self, address, called, contexts, calling="SCU", roles=(), limit=65536, timeout=120):
        """`contexts` is a list of (class, [syntaxes]); `roles` the classes to be provided."""
        self.socket = socket.create_connection(address, timeout=timeout)
        self.socket.setsockopt(socket.IPPROTO_TCP, socket.TCP_NODELAY, 1)
        self.file = self.socket.makefile("rb", buffering=262144)
        self.last = 0
        self.proposed = {2 * i + 1: c for i, (c, _) in enumerate(contexts)}
        self.socket.sendall(self.request(called, calling, contexts, roles, limit))
        kind, body = self.pdu()
        if kind != 2:
            raise Refused(f"PDU {kind} {body.hex()}")
        self.contexts, self.peer_limit = {}, 16384
        self.read_accept(body)

    @staticmethod
    def request(called, calling, contexts, roles, limit):
        items = [b"\x10\0" + struct.pack(">H", 21) + b"1.2.840.10008.3.1.1.1"]
        for i, (sop_class, syntaxes) in enumerate(contexts):
            raw = sop_class.encode()
            subs = b"\x30\0" + struct.pack(">H", len(raw)) + raw
            for s in syntaxes:
                subs += b"\x40\0" + struct.pack(">H", len(s)) + s.encode()
            items.append(b"\x20\0" + struct.pack(">H", len(subs) + 4) + bytes([2 * i + 1, 0, 0, 0]) + subs)
        user = b"\x51\0\0\4" + struct.pack(">I", limit) + b"\x52\0\0\5" + b"1.2.3"
        for sop_class in roles:
            raw = sop_class.encode()
            user += b"\x54\0" + struct.pack(">HH", len(raw) + 4, len(raw)) + raw + b"\0\1"
        items.append(b"\x50\0" + struct.pack(">H", len(user)) + user)
        body = b"\0\1\0\0" + called.ljust(16).encode() + calling.ljust(16).encode() + b"\0" * 32 + b"".join(items)
        return b"\1\0" + struct.pack(">I", len(body)) + body

    def read_accept(self, body):
        at = 68
        while at + 4 <= len(body):
            kind, size = body[at], struct.unpack_from(">H", body, at + 2)[0]
            item = body[at + 4:at + 4 + size]
            if kind == 0x21 and item[2] == 0:
                syntax = item[8:8 + struct.unpack_from(">H", item, 6)[0]].decode().rstrip("\0")
                self.contexts[item[0]] = (self.proposed[item[0]], syntax)
            if kind == 0x50 and item[:1] == b"\x51":
                self.peer_limit = struct.unpack_from(">I", item, 4)[0] or 16384
            at += 4 + size

    def read(self, count):
        raw = self.file.read(count)
        if len(raw) < count:
            raise Refused("closed")
        return raw

    def pdu(self):
        head = self.read(6)
        return head[0], self.read(struct.unpack_from(">I", head, 2)[0])

    def context(self, sop_class, syntax=None):
        for number, (found, accepted) in sorted(self.contexts.items()):
            if found == sop_class and syntax in (None, accepted):
                return number, accepted
        raise Refused(f"no context for {sop_class}")

    def fragments(self, number, is_command, data):
        most = min(self.peer_limit, 1048576) - 6
        parts = []
        for at in range(0, max(len(data), 1), most):
            piece = data[at:at + most]
            flags = (1 if is_command else 0) | (2 if at + most >= len(data) else 0)
            parts.append(b"\4\0" + struct.pack(">IIBB", len(piece) + 6, len(piece) + 2, number, flags) + piece)
        return b"".join(parts)

    def message(self, number, fields, data=None):
        fields[0x0800] = short(0x0101 if data is None else 0)
        raw = self.fragments(number, True, command(fields))
        if data is not None:
            raw += self.fragments(number, False, data)
        return raw

    def send(self, number, fields, data=None):
        self.socket.sendall(self.message(number, fields, data))

    def receive(self):
        """A message: its command's fields, and its data set."""
        fields, parts, text = None, [], []
        while True:
            kind, body = self.pdu()
            if kind != 4:
                raise Refused(f"PDU {kind} {body.hex()}")
            at = 0
            while at < len(body):
                size = struct.unpack_from(">I", body, at)[0]
                number, flags, piece = body[at + 4], body[at + 5], body[at + 6:at + 4 + size]
                at += 4 + size
                (text if flags & 1 else parts).append(piece)
                if flags == 3:
                    fields = elements(b"".join(text))
                    if fields[0x0800] == short(0x0101):
                        return number, fields, None
                elif flags == 2:
                    return number, fields, b"".join(parts)

    def echo(self):
        self.last += 1
        number, _ = self.context(VERIFICATION)
        self.send(number, {0x0002: uid(VERIFICATION), 0x0100: short(0x30), 0x0110: short(self.last)})
        return struct.unpack("<H", self.receive()[1][0x0900])[0]

    def store_request(self, instance, data, syntax, sop_class=CT_IMAGE):
        self.last = self.last % 65535 + 1
        number, _ = self.context(sop_class, syntax)
        return self.message(number, {
            0x0002: uid(sop_class), 0x0100: short(1), 0x0110: short(self.last), 0x0700: short(0),
            0x1000: uid(instance)}, data)

    def store(self, instance, data, syntax, sop_class=CT_IMAGE):
        self.socket.sendall(self.store_request(instance, data, syntax, sop_class))
        return struct.unpack("<H", self.receive()[1][0x0900])[0]

    def find(self, keys, sop_class=STUDY_ROOT_FIND):
        """The rows and the final status; `keys` is a list of (tag, vr, value)."""
        self.last = self.last % 65535 + 1
        number, syntax = self.context(sop_class)
        explicit = syntax == EXPLICIT
        data = b"".join(element(t, v, b, explicit) for t, v, b in sorted(keys))
        self.send(number, {
            0x0002: uid(sop_class), 0x0100: short(0x20), 0x0110: short(self.last), 0x0700: short(0)}, data)
        rows = []
        while True:
            _, fields, body = self.receive()
            status = struct.unpack("<H", fields[0x0900])[0]
            if status & 0xFF00 != 0xFF00:
                return rows, status
            rows.append(elements(body, explicit))

    def get(self, keys, sop_class=STUDY_ROOT_GET, keep=True):
        """What was sent, by instance UID, the final response, and how many octets came."""
        self.last = self.last % 65535 + 1
        number, syntax = self.context(sop_class)
        data = b"".join(element(t, v, b, syntax == EXPLICIT) for t, v, b in sorted(keys))
        self.send(number, {
            0x0002: uid(sop_class), 0x0100: short(0x10), 0x0110: short(self.last), 0x0700: short(0)}, data)
        found, octets = {}, 0
        while True:
            at, fields, body = self.receive()
            if fields[0x0100] == short(1):
                octets += len(body)
                found[fields[0x1000].rstrip(b"\0").decode()] = (self.contexts[at][1], body if keep else None)
                self.send(at, {
                    0x0002: fields[0x0002], 0x0100: short(0x8001), 0x0120: fields[0x0110],
                    0x0900: short(0), 0x1000: fields[0x1000]})
            elif struct.unpack("<H", fields[0x0900])[0] & 0xFF00 != 0xFF00:
                return found, fields, octets

    def release(self):
        self.socket.sendall(b"\5\0\0\0\0\4\0\0\0\0")
        kind, _ = self.pdu()
        self.file.close()
        self.socket.close()
        return kind == 6

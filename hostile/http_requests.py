"""Hostile requests to the listeners of HTTP of the built archive: to that of pages, and to the desk.

A kind is a function that draws the octets of a connection by dice, from which a run can be made again. The desk gets
those of pages too. None of what it gets asks for a correction that may be made: where a request is but a correction
with something wrong about it, its last word is wrong as soon as it is cut, and its patient is HOSTILE.
"""
import json
from urllib.parse import urlencode

from spoiling import flipped_in, front_of

PATHS = ["/", "/studies", "/studies.json", "/rejected", "/conflicts.json", "/corrections", "/site.json", "/style.css",
         "/health", "/correct", "/nothing", "/studies?page=2", "/studies?PatientName=DOE*&StudyDate=20240101-"]


# Hosts that are none of the site's, or none at all.
HOSTS = ["other", "site:80", "", "localhost.", "localhost.evil.example", "evil.example:11180", "127.1", "0x7f000001",
         "127.0.0.1.evil.example", "127.0.0.01", "256.0.0.1", "[::1", "[evil]", "::1", "localhost:a", "127.0.0.1:80:80",
         "localhost@evil.example", "loc\xe4lhost", "[::1].evil.example", "[fe80::1%25eth0]"]


def asked(dice, method="GET", fields="", body=""):
    """A request for a page, which the desk refuses."""
    return f"{method} {dice.choice(PATHS)} HTTP/1.1\r\nHost: localhost\r\n{fields}\r\n{body}".encode("latin-1")


def p_lawful(dice):
    return b"".join(asked(dice) for _ in range(dice.randint(1, 3)))


def p_flipped(dice):
    method = dice.choice(["GET", "HEAD", "POST"])
    return flipped_in(dice, asked(dice, method, "Content-Length: 4\r\nAccept: text/html\r\n", "a=bc"))


def p_cut(dice):
    return front_of(dice, p_lawful(dice))


def p_long(dice):
    """A request with a long path, a long field, thousands of fields, or a body of any length."""
    size = dice.choice([100, 4096, 8191, 8192, 8193, 70000])
    return dice.choice([
        f"GET /{'a' * size} HTTP/1.1\r\nHost: localhost\r\n\r\n".encode(), asked(dice, "GET", f"X: {'a' * size}\r\n"),
        asked(dice, "GET", "".join(f"X{i}: 1\r\n" for i in range(size // 4))),
        asked(dice, "POST", f"Content-Length: {dice.choice([0, 4096, 4097, 1 << 31, 1 << 64])}\r\n", "a" * size)])


def p_chunked(dice):
    """A body in chunks, of lengths that may say nothing of what follows."""
    chunk = dice.choice(["4\r\nabcd\r\n0\r\n\r\n", "FFFFFFFFFFFFFFFF\r\nab", "4\r\nabcdef\r\n", "-1\r\n",
                         "0\r\nX: 1\r\n\r\n", "1;" + "a" * dice.choice([10, 2000, 9000]) + "\r\na\r\n0\r\n\r\n"])
    both = dice.choice(["", "Content-Length: 4\r\n", "Transfer-Encoding: gzip\r\n"])
    return asked(dice, "POST", f"Transfer-Encoding: chunked\r\n{both}", chunk) + asked(dice)


def p_heads(dice):
    """A head that is wrong somewhere."""
    line = dice.choice(["GET / HTTP/1.0", "GET / HTTP/2.0", "GET  / HTTP/1.1", "GET / HTTP/1.1 ", "get / HTTP/1.1",
                        "GET /%zz HTTP/1.1", "OPTIONS * HTTP/1.1", "CONNECT site:80 HTTP/1.1", "/ HTTP/1.1",
                        "GET http://other/ HTTP/1.1", "GET /../studies HTTP/1.1", "GET /\xff HTTP/1.1"])
    fields = dice.choice(["Host: localhost", "", "Host: a\r\nHost: b", "Host: <i>", " Host: localhost", "Host : site",
                          "Host: localhost\r\n folded", "Host: localhost\r\nExpect: 100-continue",
                          f"Host: {dice.choice(HOSTS)}",
                          "Host: localhost\r\nUpgrade: websocket\r\nConnection: upgrade"])
    return f"{line}\r\n{fields}\r\n\r\n".encode("latin-1")


def p_noise(dice):
    return dice.randbytes(dice.choice([1, 5, 100, 9000]))


FORM, OBJECT = "application/x-www-form-urlencoded", "application/json"
WORDS = {"key": "HOSTILE", "tag": "00100010", "value": "HOSTILE", "target": "patient"}
LAWFUL = urlencode(WORDS)


def posted(body=LAWFUL, media=FORM, line="POST /correct HTTP/1.1", fields="", length=None, host="localhost"):
    """A request at the desk, that for a lawful correction where nothing is said."""
    body = body if isinstance(body, bytes) else body.encode()
    length = f"Content-Length: {len(body)}\r\n" if length is None else length
    return f"{line}\r\nHost: {host}\r\nContent-Type: {media}\r\n{length}{fields}\r\n".encode("latin-1") + body


def correction(key, value):
    """The correction of a patient's name."""
    return posted(urlencode(dict(WORDS, key=key, value=value)))


def wrong(dice):
    """Words of which one has a value that it may not have."""
    long = "A" * dice.choice([65, 100, 1000, 3900, 4096, 9000])
    name, value = dice.choice([
        ("target", ""), ("target", "image"), ("target", "PATIENT"), ("target", "patient "), ("target", "study"),
        ("target", "pati\0ent"), ("key", ""), ("key", long), ("key", "A\nB"), ("tag", ""), ("tag", "0010001"),
        ("tag", "00100010g"), ("tag", "0010,0010"), ("tag", "PatientName"), ("tag", "00080018"), ("tag", "7fe00010"),
        ("tag", "00080050"), ("tag", "+0100010"), ("tag", long), ("value", long), ("value", " A"), ("value", "A\\B"),
        ("value", "A\0B"), ("value", "A\r\nB")])
    return dict(WORDS, **{name: value})


def d_cut(dice):
    """A correction that ends before its end."""
    return front_of(dice, dice.choice([posted(), posted(json.dumps(WORDS), OBJECT)]))


def d_flipped(dice):
    """A correction whose value is much too long, so that a few octets don't mend it."""
    words = {"value": "A" * 200, **{n: v for n, v in WORDS.items() if n != "value"}}
    return flipped_in(dice, dice.choice([posted(urlencode(words)), posted(json.dumps(words), OBJECT)]))


def d_values(dice):
    """The four words, one of them with a value that it may not have."""
    words = wrong(dice)
    return dice.choice([posted(urlencode(words)), posted(json.dumps(words), OBJECT)])


def d_forms(dice):
    """A form that lacks a word, has one twice, or has others beside them."""
    name = dice.choice(list(WORDS))
    count = dice.choice([2, 100, 900, 5000])
    rest = urlencode({n: v for n, v in WORDS.items() if n != name})
    return posted(dice.choice([
        "", "&" * count, "=" * count, rest, f"{rest}&{name.upper()}={WORDS[name]}",
        f"{rest}&{name}s={WORDS[name]}", f"{LAWFUL}&{name}={WORDS[name]}", f"{LAWFUL}&more=1",
        f"{rest}&{name}[]={WORDS[name]}", LAWFUL.replace("&", ";"), LAWFUL.replace("=", "%3D"), "%" * count,
        LAWFUL + "%zz", LAWFUL + "%", "&".join(f"{name}={i}" for i in range(count)), json.dumps(WORDS)]))


def d_objects(dice):
    """A text that is no object of JSON with four strings."""
    name = dice.choice(list(WORDS))
    rest = {n: v for n, v in WORDS.items() if n != name}
    whole, depth = json.dumps(WORDS), dice.choice([1, 16, 128, 500, 2000])
    value = dice.choice(["null", "true", "1", "-0", "1e999999", "1" * 1000, "[]", "{}", f"[{json.dumps(WORDS[name])}]",
                         "[" * depth + "]" * depth, '{"a":' * depth + "1" + "}" * depth])
    return posted(dice.choice([
        json.dumps(rest), f"{json.dumps(rest)[:-1]}, {json.dumps(name)}: {value}}}",
        f"{whole[:-1]}, {json.dumps(name)}: {value}}}", f"[{whole}]", whole + whole, whole[:-1], whole[:-1] + ",}",
        whole.replace('"', "'"), whole.replace('"patient"', "patient"), whole.replace("patient", "pati\\ud800ent"),
        whole.replace("patient", "pati\\u0000ent"), whole.replace("patient", "pati\\xent"), whole + "/**/",
        "[" * depth, '{"target":' * depth, '"' + "\\" * depth, json.dumps(json.dumps(WORDS)), LAWFUL,
        json.dumps({"words": WORDS}), json.dumps({n.upper(): v for n, v in WORDS.items()})]), OBJECT)


def d_media(dice):
    """A lawful correction as what it is not."""
    body = dice.choice([LAWFUL, json.dumps(WORDS)])
    media = dice.choice(["", "text/plain", "multipart/form-data; boundary=a", "text/html; " + FORM, FORM + "s",
                         ";" + FORM, FORM.upper(), "a" * dice.choice([100, 8000, 9000]),
                         f"text/plain\r\nContent-Type: {FORM}"])
    return posted(body, dice.choice([media, OBJECT if body == LAWFUL else FORM]))


def d_lengths(dice):
    """A lawful correction whose length is not what is said."""
    n = len(LAWFUL)
    length = dice.choice(["", "0", str(n - 1), str(n - 40), str(n + 1), str(n + 4000), f"-{n}", f"+{n}", hex(n),
                          f"{n} {n}", f"{n}.0", f"{n};", "4097", str(1 << 31), str(1 << 64), str((1 << 64) + n),
                          "9" * 500, f"{n}\r\nContent-Length: {n + 1}", f"{n + 1}\r\nContent-Length: {n}", f"{n}, {n + 1}"])
    return posted(length=length and f"Content-Length: {length}\r\n")


def d_chunks(dice):
    """A lawful correction in chunks that are wrong."""
    n = len(LAWFUL)
    end, extension = "\r\n0\r\n\r\n", ";" + "a" * dice.choice([1025, 5000, 9000])
    text = dice.choice([
        f"{n - 1:x}\r\n{LAWFUL}{end}", f"{n + 1:x}\r\n{LAWFUL}{end}", f"{n:x}\r\n{LAWFUL}", f"{n:x}\r\n{LAWFUL}\r\n",
        f"{(1 << 64) + n:x}\r\n{LAWFUL}{end}", f"-{n:x}\r\n{LAWFUL}{end}", f"0x{n:x}\r\n{LAWFUL}{end}",
        f"{n:x}\r\n{LAWFUL}0\r\n\r\n", f"{n:x}{extension}\r\n{LAWFUL}{end}", f"{n:x} {n:x}\r\n{LAWFUL}{end}",
        f"\r\n{n:x}\r\n{LAWFUL}{end}", "".join(f"1\r\n{c}\r\n" for c in LAWFUL), f"1\r\n{'a' * 5000}",
        "1\r\na\r\n" * 5000, f"{n:x}\r\n{LAWFUL}\r\n0\r\nX: {'a' * dice.choice([1500, 9000])}\r\n\r\n"])
    return posted(text, length="Transfer-Encoding: chunked\r\n")


def d_encodings(dice):
    """A lawful correction of two lengths, or in an encoding that is not read."""
    n = len(LAWFUL)
    coding = dice.choice(["gzip", "chunked, gzip", "gzip, chunked", "xchunked", "chunked, chunked", "identity", ""])
    chunks = f"{n:x}\r\n{LAWFUL}\r\n0\r\n\r\n"
    both = f"Content-Length: {dice.choice([n, 4, len(chunks)])}\r\nTransfer-Encoding: chunked\r\n"
    return dice.choice([posted(length=f"Transfer-Encoding: {coding}\r\n"), posted(chunks, length=both)])


def d_lines(dice):
    """A lawful correction whose first line asks for something else."""
    methods = ["GET", "HEAD", "PUT", "DELETE", "PATCH", "OPTIONS", "TRACE", "CONNECT", "post", "Post", "POST\t",
               "P\0ST", ""]
    paths = ["/", "/correct/", "/correct/1", "//correct", "/CORRECT", "/corr%65ct", "/correct%00", "/./correct",
             "correct", "*", "http://desk/", "/" + "a" * dice.choice([1000, 8200, 20000]), "/correct /correct", ""]
    versions = ["HTTP/0.9", "HTTP/2.0", "HTTP/1.10", "HTTP/11", "http/1.1", "HTCPCP/1.0", "", "HTTP/1.1 HTTP/1.1"]
    return posted(line=dice.choice([f"{dice.choice(methods)} /correct HTTP/1.1", f"POST {dice.choice(paths)} HTTP/1.1",
                                    f"POST /correct {dice.choice(versions)}"]))


def d_fields(dice):
    """A lawful correction with fields that a request may not have, or more of them than are read."""
    return posted(fields=dice.choice([
        "Origin: http://desk\r\n", "Origin: null\r\n", "Origin:\r\n", "oRiGiN: a\r\nOrigin: b\r\n", "Host: other\r\n",
        "X : 1\r\n", " folded\r\n", ": 1\r\n", "X\r\n", "X\0: 1\r\n", "X: \0\r\n", "X: a\rb\r\n", "X\xff: 1\r\n",
        f"X: {'a' * dice.choice([8192, 20000])}\r\n",
        "".join(f"X{i}: 1\r\n" for i in range(dice.choice([1000, 5000])))]))


def d_hosts(dice):
    """A lawful correction under a host that is none of the site's."""
    return posted(host=dice.choice(HOSTS))


def d_behind(dice):
    """Lawful corrections behind a request that is refused, over one connection."""
    front = dice.choice([asked(dice), posted("target=image"), posted(line="POST / HTTP/1.1"), posted(media="a/b")])
    return front + posted() * dice.randint(1, 40)


def d_noise(dice):
    """Noise, and what other protocols begin with."""
    return dice.choice([p_noise(dice), b"PRI * HTTP/2.0\r\n\r\nSM\r\n\r\n",
                        b"\x16\3\1\2\0\1\0\1\xfc\3\3" + dice.randbytes(506),
                        b"\r\n" * dice.choice([1, 100, 9000]), b"\1\0\0\0\0\xcd\0\1\0\0" + b"ARCHIVE".ljust(197)])


def d_slow(dice):
    """A correction that ends before its end, of which little comes at a time."""
    return d_cut(dice)


PAGE_KINDS = [p_lawful, p_flipped, p_flipped, p_cut, p_long, p_chunked, p_heads, p_noise]
DESK_KINDS = PAGE_KINDS + [d_cut, d_flipped, d_flipped, d_values, d_forms, d_objects, d_media, d_lengths, d_chunks,
                           d_encodings, d_lines, d_fields, d_hosts, d_behind, d_noise]

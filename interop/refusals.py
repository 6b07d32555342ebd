"""Command lines that `archive` has to refuse: the line on standard error, the status, and that nothing was made.

Files are tried by a user without rights on them: where the script is run by root, by the user and group 65534.
"""
import os
import shutil
import socket
import sqlite3
import subprocess
import sys

from archive import free_port, same, told

NOBODY = {"user": 65534, "group": 65534, "extra_groups": []} if os.geteuid() == 0 else {}
SERVED = ["--workers", "1", "--each", "1"]
HEAD = b"SQLite format 3\0"


def below(folder):
    """What stands below a folder: each path with its kind and mode, and its bytes."""
    found = {}
    for at, folders, names in os.walk(folder):
        for name in folders + names:
            path = os.path.join(at, name)
            mode = os.lstat(path).st_mode
            data = b""
            if os.path.isfile(path):
                with open(path, "rb") as f:
                    data = f.read()
            found[os.path.relpath(path, folder)] = (mode, data)
    return found


# What SQLite's log has before its first commit: a header, and a mark of the sqlite crate behind it.
BARE_LOG = 41


def is_bare_log(path, before, data):
    """Whether a file is a log without a commit beside a database that was there: an open may leave one."""
    file = path.removesuffix("-wal")
    return path != file and before.get(file, (0, b""))[1].startswith(HEAD) and len(data) <= BARE_LOG


def changes(before, after):
    """What was made, and what is otherwise than it was, but for a log that holds nothing."""
    other = [f"made {p}" for p in sorted(set(after) - set(before)) if not is_bare_log(p, before, after[p][1])]
    other += [f"removed {p}" for p in sorted(set(before) - set(after))]
    return " ".join(other + [f"changed {p}" for p in sorted(set(before) & set(after)) if after[p] != before[p]
                             and not is_bare_log(p, before, after[p][1])])


class Refusals:
    def __init__(self, program, folder):
        self.folder = os.path.join(folder, "refused")
        os.mkdir(self.folder)
        os.chmod(folder, 0o755)
        os.chmod(self.folder, 0o777)
        # Where the program stands, another user may not reach it.
        self.program = shutil.copy(program, os.path.join(folder, "archive"))
        os.chmod(self.program, 0o755)
        self.count = 0

    def new(self):
        """The path of a file that is not there."""
        self.count += 1
        return self.path(f"new {self.count}")

    def path(self, name):
        return os.path.join(self.folder, name)

    def run(self, words, user):
        """The status of a command line, what it printed and what it wrote on standard error."""
        done = subprocess.run(
            [self.program, *words], stdin=subprocess.DEVNULL, stdout=subprocess.PIPE, stderr=subprocess.PIPE,
            timeout=300, check=False, **user)
        return done.returncode, done.stdout.decode(), done.stderr.decode()

    def refused(self, what, words, status, line, user=NOBODY):
        """A command line that has to end so: with these whole lines, or, where they are None, with some."""
        before = below(self.folder)
        ended, out, err = self.run(words, user)
        fault = same((ended, out), (status, ""))
        if line is None:
            fault = fault or ("" if err.strip() else "nothing stands on standard error")
        else:
            fault = fault or same(err, line + "\n")
        told(f"{what}: status {status}" + (f", {line.splitlines()[0]}" if line else ""), fault)
        told(f"{what}: nothing is made or changed", changes(before, below(self.folder)))

    def goes_on(self, what, words, out, err):
        """A command line that is done without what can't be read: this output, these whole lines, and status 1."""
        told(f"{what}: it goes on, with status 1", same(self.run(words, NOBODY), (1, out, err + "\n")))

    def said(self, words):
        """The status of a command line, and what it wrote on standard error."""
        status, _, err = self.run(words, NOBODY)
        return status, err

    def serve(self, file, address="", *more):
        return ["serve", self.path(file), "--listen", address or f"127.0.0.1:{free_port()}", *(more or SERVED)]


def try_words(refusals):
    """Words of another form: status 2."""
    for more in (["--workers", "0", "--each", "1"], ["--workers", "65", "--each", "1"],
                 ["--workers", "1", "--each", "4294967296"], ["--workers", "1", "--each", "-1"],
                 ["--workers", "one", "--each", "1"], [*SERVED, "--rounds", "4294967296"],
                 [*SERVED, "--idle", "86401"], [*SERVED, "--idle", "-1"], [*SERVED, "--exchange-workers", "2"],
                 ["--workers", "63", "--each", "1", "--exchange", f"127.0.0.1:{free_port()}", "--rounds", "1"],
                 [*SERVED, "--exchange", f"0.0.0.0:{free_port()}", "--rounds", "1"],
                 [*SERVED, "--rounds", "1"], [*SERVED, "--exchange", f"127.0.0.1:{free_port()}"],
                 [*SERVED, "--every", "1"], [*SERVED, "--page-allow", "10.0.0.0/8"],
                 ["--workers", "64", "--each", "1", "--page", f"127.0.0.1:{free_port()}"],
                 [*SERVED, "--site", "1"], [*SERVED, "--desk", f"127.0.0.1:{free_port()}"],
                 [*SERVED, "--desk-allow", "10.0.0.0/8"],
                 *([*SERVED, "--desk", f"127.0.0.1:{free_port()}", "--site", site] for site in ("0", "65536", "x")),
                 ["--workers", "64", "--each", "1", "--desk", f"127.0.0.1:{free_port()}", "--site", "1"],
                 ["--workers", "63", "--each", "1", "--page", f"127.0.0.1:{free_port()}", "--desk",
                  f"127.0.0.1:{free_port()}", "--site", "1"]):
        refusals.refused("serve " + " ".join(more), refusals.serve(refusals.new(), "", *more), 2, None)
    for address in ("localhost:11112", "127.0.0.1", "127.0.0.1:", "127.0.0.1:65536", "127.0.0.256:11112",
                    "[::1]:11112", ":11112", "11112", "127.0.0.1:11112 ", "tcp://127.0.0.1:11112"):
        refusals.refused(f"serve --listen {address!r}", refusals.serve(refusals.new(), address), 2, None)
        refusals.refused(f"exchange --peer {address!r}", ["exchange", refusals.new(), "--peer", address], 2, None)
        refusals.refused(f"serve --exchange {address!r}", refusals.serve(
            refusals.new(), "", *SERVED, "--exchange", address, "--rounds", "1"), 2, None)
        for option, beside in (("--peer", []), ("--page", []), ("--desk", ["--site", "1"])):
            refusals.refused(f"serve {option} {address!r}", refusals.serve(
                refusals.new(), "", *SERVED, option, address, *beside), 2, None)
    for network in ("10.0.0.0/33", "10.0.0", "10.0.0.0/", "10.0.0.256", "::1/128", "localhost"):
        for option in ("--allow", "--exchange-allow", "--page-allow", "--desk-allow"):
            refusals.refused(f"serve {option} {network!r}", refusals.serve(
                refusals.new(), "", *SERVED, "--page", f"127.0.0.1:{free_port()}", "--desk",
                f"127.0.0.1:{free_port()}", "--site", "1", option, network), 2, None)
    for name in ("", "a b", "a_b", "a:80", "[::1]", "http://a", "\u00e9", "a" * 254):
        refusals.refused(f"serve --name {name!r}", refusals.serve(refusals.new(), "", *SERVED, "--name", name), 2, None)
    many = [w for port in range(1, 65) for w in ("--peer", f"127.0.0.1:{port}")]
    refusals.refused("serve with a worker and 64 peers", refusals.serve(refusals.new(), "", *SERVED, *many), 2, None)
    for words in ([], ["nothing"], ["report"], ["exchange", refusals.new()], ["move", refusals.new()],
                  ["report", refusals.new(), "--tsv"], ["report", refusals.new(), "--studies", "--rejected"],
                  ["correct", refusals.new(), "--site", "0", "patient", "P1", "00100010", "A"],
                  ["correct", refusals.new(), "--site", "65536", "patient", "P1", "00100010", "A"],
                  ["correct", refusals.new(), "--site", "1", "image", "P1", "00100010", "A"],
                  ["correct", refusals.new(), "--site", "1", "patient", "P1", "0010001", "A"]):
        refusals.refused("archive " + " ".join(os.path.basename(w) for w in words), words, 2, None)


def lines(fault, about, why):
    """The two lines of a fault: its number, and in words what it is about and why."""
    return f"{fault}\narchive: {about}: {why}"


RIGHTS = "no right to read and write it, or to make files in its folder"
DAMAGED = "it is damaged, or no archive's file"
OTHER = "it is no archive's file"
BAD_ROW = "an operation in it is not what its digest says"
HIDDEN = ("a rejection note may be among what can't be read: archive exchange with another site, or a restore, mends "
          "it; --show-without serves without it")
PARTLY = "some of its operations can't be read"
WITHOUT_LOG = "its -wal is not beside it: without it what came last is missing, unless sqlite3 closed it"


def unread(path, digest):
    """What is said of a row that is none of an operation, under this text."""
    return f"archive: {path}: can't be read: SOP Instance UID -, digest {digest}, may be a rejection note"


def partly(path, digest):
    """The lines of a command that is done without such a row, before and behind what it says itself."""
    return unread(path, digest), "\n".join([
        f"archive: {path}: can't be read: 1 in all", lines("fault shelf 2", path, PARTLY)])


def try_unread(refusals, what, name, digest, words, out):
    """Commands on a file of which one row can't be read, under this text: a start refuses, as a note may be in it, and
    a correction, as another may be; a report says so, and is done without it, with this output. All leave the file as
    it was. `words` has them by their names."""
    path = refusals.path(name)
    refusals.refused(f"serve of {what}", words["serve"], 1, "\n".join([
        unread(path, digest), lines("fault shelf 2", path, HIDDEN)]))
    refusals.refused(f"correct of {what}", words["correct"], 1, "\n".join([
        unread(path, digest), lines("fault shelf 2", path, BAD_ROW)]))
    before = below(refusals.folder)
    refusals.goes_on(f"report of {what}", words["report"], out, "\n".join(partly(path, digest)))
    told(f"report of {what}: nothing is made or changed", changes(before, below(refusals.folder)))


def on_file(refusals, file):
    """Each command on a file."""
    return (("serve", refusals.serve(file)), ("report", ["report", refusals.path(file)]),
            ("correct", ["correct", refusals.path(file), "--site", "1", "patient", "P1", "00100010", "A"]),
            ("exchange", ["exchange", refusals.path(file), "--peer", f"127.0.0.1:{free_port()}"]))


def make_site(refusals, name):
    """The file of a site with two corrections, without a log."""
    for value in ("ROE^ANN", "DOE^JANE"):
        refusals.run(["correct", refusals.path(name), "--site", "1", "patient", "P1", "00100010", value], NOBODY)
    # Before its last connection ends, sqlite3 copies the log into the file.
    database = sqlite3.connect(refusals.path(name))
    database.execute("PRAGMA journal_mode = DELETE")
    database.close()


def make_files(refusals):
    """Files that are no site's, by name, and copies of a site's file that were harmed."""
    os.mkdir(refusals.path("a folder"))
    with open(refusals.path("a folder/a text"), "wb") as f:
        f.write(b"This is no log.\n")
    for name, data in (("a text", b"This is no database.\n"), ("one octet", b"S"), ("zeros", bytes(8192)),
                       ("the head alone", HEAD), ("noise", HEAD + os.urandom(8176))):
        with open(refusals.path(name), "wb") as f:
            f.write(data)
    database = sqlite3.connect(refusals.path("another database"))
    database.execute("CREATE TABLE note (id INTEGER PRIMARY KEY, title TEXT)")
    database.commit()
    database.close()
    make_site(refusals, "whole")
    with open(refusals.path("whole"), "rb") as f:
        whole = f.read()
    with open(refusals.path("cut off"), "wb") as f:
        f.write(whole[:len(whole) - 4096])
    shutil.copy(refusals.path("whole"), refusals.path("an operation changed"))
    database = sqlite3.connect(refusals.path("an operation changed"))
    database.execute("UPDATE ops2 SET body = body || x'00' WHERE digest = (SELECT min(digest) FROM ops2)")
    database.commit()
    database.close()
    for name in os.listdir(refusals.folder):
        if os.path.isfile(refusals.path(name)):
            os.chmod(refusals.path(name), 0o666)


def try_changed(refusals, name):
    """Of two corrections in a file one can't be read: a report and an exchange go on without it."""
    path, words = refusals.path(name), dict(on_file(refusals, name))
    database = sqlite3.connect(path)
    digest = database.execute("SELECT min(digest) FROM ops2").fetchone()[0]
    database.close()
    peer = words["exchange"][3]
    refusals.refused("exchange of a FILE with an operation changed, with nobody", words["exchange"], 1, "\n".join([
        unread(path, digest), lines("fault net 3", peer, "nobody listens there")]))
    try_unread(refusals, "a FILE with an operation changed", name, digest, words,
               "operations 1\ncontents 0\ncorrections 1\nseries 0\nend 0\n")


def try_files(refusals):
    make_files(refusals)
    for file, why in (("a folder", "it is a folder, and no archive's"), ("a text", OTHER), ("one octet", OTHER), ("zeros", OTHER),
                      ("the head alone", DAMAGED), ("noise", DAMAGED), ("cut off", DAMAGED),
                      ("another database", "it is another program's database")):
        for command, words in on_file(refusals, file):
            refusals.refused(f"{command} of a FILE that is {file}", words, 1,
                             lines("fault shelf 1", refusals.path(file), why))
    try_changed(refusals, "an operation changed")
    for command, words in on_file(refusals, "a folder that is not there/new")[:1]:
        refusals.refused(f"{command} of a FILE in no folder", words, 1, lines(
            "fault shelf 1", refusals.path("a folder that is not there/new"), "its folder is not there"))
    os.symlink(refusals.path("nowhere/site.db"), refusals.path("a link to nowhere"))
    for command, words in on_file(refusals, "a link to nowhere")[:1]:
        refusals.refused(f"{command} of a FILE that is a link to nowhere", words, 1, lines(
            "fault shelf 1", refusals.path("a link to nowhere"), "it is a link that leads nowhere"))
    os.link(refusals.path("whole"), refusals.path("a second name"))
    for command, words in on_file(refusals, "a second name")[2:]:
        refusals.refused(f"{command} of a FILE with two names", words, 1, lines(
            "fault shelf 1", refusals.path("a second name"), "it is no plain file, or has a second name"))
    os.remove(refusals.path("a second name"))
    shutil.copy(refusals.path("whole"), refusals.path("unreadable"))
    os.chmod(refusals.path("unreadable"), 0)
    shutil.copy(refusals.path("whole"), refusals.path("unwritable"))
    os.chmod(refusals.path("unwritable"), 0o444)
    os.mkdir(refusals.path("closed"), 0o555)
    for file in ("unreadable", "unwritable", "closed/new"):
        for command, words in on_file(refusals, file):
            fault = lines("fault shelf 1", refusals.path(file), RIGHTS)
            # A file that is not there is made once the peer answers, and nobody does here.
            if (command, file) == ("exchange", "closed/new"):
                fault = lines("fault net 3", words[3], "nobody listens there")
            # A report only reads.
            if command != "report" or file == "unreadable":
                refusals.refused(f"{command} of a FILE without rights, {file}", words, 1, fault)
    try_reports(refusals)


def try_reports(refusals):
    """Reports of files that can't be written, lack their log or are not there: nothing is made, and that is said."""
    before = below(refusals.folder)
    plain = refusals.run(["report", refusals.path("unwritable")], NOBODY)
    told("report of a FILE that may not be written", same(plain, (
        0, "operations 2\ncontents 0\ncorrections 2\nseries 0\nend 0\n", "")))
    absent = refusals.new()
    refusals.refused("report of a FILE that is not there", ["report", absent], 1,
                     lines("fault shelf 1", absent, "it is not there"))
    told("reports make nothing", changes(before, below(refusals.folder)))
    with_log, alone = refusals.path("with a log"), refusals.path("without its log")
    refusals.run(["correct", with_log, "--site", "1", "patient", "P1", "00100010", "ROE^ANN"], NOBODY)
    told("report of a FILE beside its log says nothing", same(refusals.said(["report", with_log]), (0, "")))
    link = refusals.path("a link")
    os.symlink(with_log, link)
    found = refusals.run(["report", with_log], NOBODY)
    told("report of a link to it tells what it holds, log and all", same(refusals.run(["report", link], NOBODY), found))
    os.remove(link)
    shutil.copy(with_log, alone)
    before = below(refusals.folder)
    told("report of a FILE that was copied without its log says so", same(refusals.said(["report", alone]), (
        0, f"archive: {alone}: {WITHOUT_LOG}\n")))
    told("it makes no log", changes(before, below(refusals.folder)))
    try_written(refusals)


# A process of its own, since one that reads a file and closes it lets go of its locks of it.
WRITES = """
import sqlite3, sys
database = sqlite3.connect(sys.argv[1], isolation_level=None)
for step in ("PRAGMA journal_mode = WAL; BEGIN IMMEDIATE", "ROLLBACK"):
    for words in step.split("; "):
        database.execute(words)
    print(step, flush=True)
    sys.stdin.readline()
"""


def try_written(refusals):
    """Reports of a file that may not be written, while sqlite3 writes it, and once it does not."""
    written = refusals.path("written")
    shutil.copy(refusals.path("whole"), written)
    words = [sys.executable, "-c", WRITES, written]
    with subprocess.Popen(words, stdin=subprocess.PIPE, stdout=subprocess.PIPE) as writer:
        writer.stdout.readline()
        for end in ("", "-wal", "-shm"):
            if os.path.exists(written + end):
                os.chmod(written + end, 0o444)
        refusals.refused("report of a FILE that sqlite3 writes", ["report", written], 1, lines(
            "fault shelf 1", written, "another program has it open"))
        writer.stdin.write(b"\n")
        writer.stdin.flush()
        writer.stdout.readline()
        told("report of it once sqlite3 only has it open", same(refusals.run(["report", written], NOBODY), (
            0, "operations 2\ncontents 0\ncorrections 2\nseries 0\nend 0\n", "")))


def try_corrections(refusals):
    """Corrections that are refused for a part, and those that are stamped with a warning."""
    for words, why in ((("study", "1.2.x", "00100010", "A"), "KEY is no UID, or no Patient ID, that a target can have"),
                       (("patient", "", "00100010", "A"), "KEY is no UID, or no Patient ID, that a target can have"),
                       (("patient", "P1", "00080018", "1.2"),
                        "TAG is no attribute of this target that can be corrected"),
                       (("series", "1.2", "00100010", "A"),
                        "TAG is no attribute of this target that can be corrected"),
                       (("patient", "P1", "00100010", "A" * 65),
                        "VALUE is longer than 64, or has a byte or an outer space that it may not have"),
                       (("patient", "P1", "00100010", "A\\B"),
                        "VALUE is longer than 64, or has a byte or an outer space that it may not have")):
        file = refusals.new()
        refusals.refused(f"correct {' '.join(words)[:40]}", ["correct", file, "--site", "1", *words], 1,
                         lines("fault hub 7", file, why))
    file = refusals.path("warned")
    nobody = {"study": "it has nothing of this study, or not yet", "patient": "it has nothing of this patient, or not yet",
              "series": "it has nothing of this series, or not yet"}
    date = "VALUE is no date that a query matches, such as 20240229"
    time = "VALUE is no time that a query matches, such as 101530"
    for words, why in ((("study", "1.2", "00080020", "2024-02-29"), date), (("study", "1.2", "00080020", "20240229"), ""),
                       (("study", "1.2", "00080020", "20240101-20240229"), date),
                       (("study", "1.2", "00080020", ""), ""), (("patient", "P1", "00100030", "1970"), date),
                       (("study", "1.2", "00080030", "10:15"), time), (("study", "1.2", "00080030", "101530.5"), ""),
                       (("series", "1.2.3", "0008103e", "AXIAL"), "")):
        wanted = [w for w in (why, nobody[words[0]]) if w]
        told(f"correct {' '.join(words)} warns, and stamps", same(
            refusals.said(["correct", file, "--site", "1", *words]),
            (0, "".join(f"archive: {file}: warning: {w}\n" for w in wanted))))


def try_addresses(refusals, archive):
    """Ports in use, and peers that are none."""
    with socket.socket() as other:
        other.bind(("127.0.0.1", 0))
        other.listen()
        used = "127.0.0.1:%d" % other.getsockname()[1]
        in_use = lines("fault net 1", used, "the port is in use")
        refusals.refused("serve on a port in use", refusals.serve(refusals.new(), used), 1, in_use)
        refusals.refused("serve --exchange on a port in use", refusals.serve(
            refusals.new(), "", *SERVED, "--exchange", used, "--rounds", "1"), 1, in_use)
        refusals.refused("serve --page on a port in use", refusals.serve(
            refusals.new(), "", *SERVED, "--page", used), 1, in_use)
        refusals.refused("serve --desk on a port in use", refusals.serve(
            refusals.new(), "", *SERVED, "--desk", used, "--site", "1"), 1, in_use)
    taken = ":".join(archive.at())
    refusals.refused("serve on a port of the archive", refusals.serve(refusals.new(), taken), 1,
                     lines("fault net 1", taken, "the port is in use"))
    refusals.refused("serve at an address of another machine", refusals.serve(refusals.new(), "192.0.2.1:11112"), 1,
                     lines("fault net 1", "192.0.2.1:11112", "it is no address of this machine"))
    nobody = f"127.0.0.1:{free_port()}"
    refusals.refused("exchange with nobody", ["exchange", refusals.new(), "--peer", nobody], 1,
                     lines("fault net 3", nobody, "nobody listens there"))


def try_served(refusals, archive):
    """A file that another program serves: refused, and that one is as it was."""
    before = archive.find("ARCHIVE", "0008,0052=STUDY", "0020,000d")
    for command, words in on_file(refusals, archive.path):
        refusals.refused(f"{command} of a FILE that is served", words, 1, lines(
            "fault shelf 1", archive.path, "another program has it open"), {})
    told("the site that serves it answers as before", same(
        archive.find("ARCHIVE", "0008,0052=STUDY", "0020,000d"), before))


def try_script(refusals):
    """A script with a line of 65,537 bytes: it is answered up to that line."""
    script = "site A\nsite B\n#" + "x" * 65536 + "\nsite C\n"
    done = subprocess.run(
        [refusals.program, "simulate"], input=script.encode(), stdout=subprocess.PIPE, stderr=subprocess.PIPE,
        timeout=300, check=False)
    told("simulate of a line of 65,537 bytes is refused behind the lines before it", same(
        (done.returncode, done.stdout.decode(), done.stderr.decode()),
        (1, "site A 1\nsite B 2\n", "fault simulate 3\narchive: a line is longer than 65,536 bytes\n")))


def try_commands(archive, folder):
    """All of them, beside an archive that serves and holds something."""
    refusals = Refusals(archive.program, folder)
    try_words(refusals)
    try_script(refusals)
    try_addresses(refusals, archive)
    try_served(refusals, archive)
    try_corrections(refusals)
    try_files(refusals)

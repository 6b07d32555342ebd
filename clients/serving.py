"""Servers of DICOM that are measured one after another: the built archive, dcmqrscp and Orthanc; and what they do.

Each gets an empty folder and a port of its own at 127.0.0.1, and ends by a kill.
"""
import json
import os
import signal
import subprocess
import sys
import time

from dicom import CT_IMAGE, EXPLICIT, IMPLICIT, STUDY_ROOT_FIND, STUDY_ROOT_GET, VERIFICATION, Association, uid
from processes import free_port, resident
from storing import FORK, Filling, study_of

CONTEXTS = [
    (VERIFICATION, [IMPLICIT]), (CT_IMAGE, [EXPLICIT]), (STUDY_ROOT_FIND, [EXPLICIT]),
    (STUDY_ROOT_GET, [IMPLICIT])]


class Server:
    # How many associations it serves at once, and how many seconds it may take to start.
    ways, patience = 8, 120

    def __init__(self, name, folder, program, *options):
        self.name, self.folder, self.program, self.options = name, folder, program, options
        self.process, self.port = None, 0
        os.makedirs(folder, exist_ok=True)

    def command(self):
        if self.name.startswith("archive"):
            kept = "site/" if "folder" in self.name else "site.sqlite"
            return [self.program, "serve", os.path.join(self.folder, kept), "--listen",
                    f"127.0.0.1:{self.port}", "--workers", str(self.ways), "--each", "1000000", *self.options]
        if self.name == "dcmqrscp":
            path = os.path.join(self.folder, "dcmqrscp.cfg")
            os.makedirs(os.path.join(self.folder, "db"), exist_ok=True)
            with open(path, "w", encoding="ascii") as f:
                f.write(f"NetworkTCPPort = {self.port}\nMaxPDUSize = 65536\nMaxAssociations = 16\n"
                        "HostTable BEGIN\nHostTable END\nVendorTable BEGIN\nVendorTable END\n"
                        f"AETable BEGIN\nARCHIVE {self.folder}/db RW (100000, 9999mb) ANY\nAETable END\n")
            return ["dcmqrscp", "-c", path]
        path = os.path.join(self.folder, "orthanc.json")
        with open(path, "w", encoding="ascii") as f:
            json.dump({
                "StorageDirectory": self.folder + "/db", "IndexDirectory": self.folder + "/db",
                "DicomPort": self.port, "HttpServerEnabled": False, "DicomAet": "ARCHIVE",
                "DicomAlwaysAllowStore": True, "DicomAlwaysAllowFind": True, "DicomAlwaysAllowGet": True,
                "DicomThreadsCount": self.ways, "LimitFindResults": 0, "LimitFindInstances": 0}, f)
        return ["Orthanc", path]

    def start(self):
        """Seconds until it answers an echo."""
        self.port = free_port()
        begin = time.perf_counter()
        self.process = subprocess.Popen(
            self.command(), stdout=subprocess.DEVNULL, stderr=subprocess.DEVNULL,
            start_new_session=True, env=dict(os.environ, TCP_NODELAY="1"))
        while True:
            try:
                a = self.connect()
                a.echo()
                a.release()
                return time.perf_counter() - begin
            except OSError:
                if self.process.poll() is not None or time.perf_counter() - begin > self.patience:
                    raise
                time.sleep(0.002)

    def connect(self):
        return Association(("127.0.0.1", self.port), "ARCHIVE", CONTEXTS, roles=[CT_IMAGE], timeout=600)

    def stop(self):
        os.killpg(self.process.pid, signal.SIGKILL)
        self.process.wait()

    def end(self):
        """Stops it where it runs."""
        if self.process and self.process.poll() is None:
            self.stop()

    def memory(self):
        """Resident megabytes."""
        return resident(self.process.pid) / 1e6


class Kept(Server):
    """An archive in a file or in a folder, with a page where it is asked for."""

    def __init__(self, kind, folder, program, page=False, reloaded="", options=()):
        super().__init__("archive", folder, program, *options)
        self.kept = os.path.join(folder, "site.db" if kind == "file" else "site/")
        self.page, self.reloaded = free_port() if page else 0, reloaded
        self.loads = FORK.Array("Q", 1, lock=False)

    def command(self):
        page = ["--page", f"127.0.0.1:{self.page}"] if self.page else []
        return [self.program, "serve", self.kept, "--listen", f"127.0.0.1:{self.port}",
                "--workers", str(self.ways), "--each", "1000000", *page, *self.options]


def stores(server, prefix, count, size, ways):
    """Images a second, of so many a way and ten a study."""
    studies = max(count // 10, 1)
    return Filling(server.port, prefix, ways * studies, count // studies, size, ways).run().rate()


def study_keys(value):
    return [(0x00080020, b"DA", b""), (0x00080052, b"CS", b"STUDY "), (0x00100010, b"PN", b""),
            (0x00100020, b"LO", b""), (0x0020000D, b"UI", uid(value)), (0x00201208, b"IS", b"")]


def gets(server, prefix, studies):
    """Megabytes a second of C-GETs of studies that `stores` stored, and images a second."""
    link = server.connect()
    octets = count = 0
    begin = time.perf_counter()
    for i in range(studies):
        found, _, size = link.get(
            [(0x00080052, b"CS", b"STUDY "), (0x0020000D, b"UI", uid(study_of(prefix, i)))], keep=False)
        octets += size
        count += len(found)
    spent = time.perf_counter() - begin
    link.release()
    return octets / spent / 1e6, count / spent


def tried(server, figures, what, figure):
    """A figure, which is left out where the server fails in it."""
    try:
        figures[what] = figure()
    except Exception as fault:  # noqa: BLE001
        print(f"{server.name}: {what}: {fault}", file=sys.stderr, flush=True)


def figured(number):
    """A figure in three digits, or in all before its point."""
    return f"{number:,.0f}" if number >= 100 else f"{number:.3g}"


def ratio(figure, peers, less):
    """How many times the better peer's figure it is, or that one this where less is better."""
    if not figure:
        return "-"
    return f"{min(peers) / figure if less else figure / max(peers):.2f}"


def printed(found):
    """The figures of the archives and of their peers, by name, as a table in Markdown."""
    names = list(found)
    ours = sum(n.startswith("archive") for n in names)
    peers = names[ours:]
    print("| work | " + " | ".join(names) + " | beside the better peer |" * bool(peers) + " |" * (not peers))
    print("|---" * (len(names) + 1 + bool(peers)) + "|")
    for key in dict.fromkeys(k for n in names for k in found[n]):
        row = [found[n].get(key) for n in names]
        cells = ["" if v is None else figured(v) for v in row]
        others = [figure for figure in row[ours:] if figure]
        if peers:
            cells.append(" and ".join(ratio(v, others, "less is better" in key) for v in row[:ours] if others))
        print(f"| {key} | " + " | ".join(cells) + " |")

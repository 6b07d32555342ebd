"""The built archive as the scripts here run it, and the images that they store."""
import os
import re
import signal
import subprocess
import sys

sys.path.insert(0, os.path.join(os.path.dirname(os.path.abspath(__file__)), "..", "clients"))
from dicom import EXPLICIT, elements, image, of_part10, padded, part10  # noqa: E402
from processes import free_port  # noqa: E402
from telling import counts, same, told  # noqa: E402,F401

PATIENT_NAME = 0x00100010


def check_status(outcome):
    status, text = outcome
    return "" if status == 0 else f"status {status}: {text[-300:]}"


def client(tool, *words):
    """The status and the output of a client."""
    done = subprocess.run(
        [tool, *words], stdout=subprocess.PIPE, stderr=subprocess.STDOUT, timeout=300,
        env=dict(os.environ, TCP_NODELAY="1"), check=False)
    return done.returncode, done.stdout.decode("latin-1")


class Archive:
    """A site that serves the file at a path, and exchanges where it is asked to; more options may follow."""

    def __init__(self, program, path, exchanges, *options):
        self.program, self.path, self.process, self.options = program, path, None, options
        self.port, self.peer, self.exchanges = 0, "", exchanges

    def start(self):
        self.port, self.peer = free_port(), f"127.0.0.1:{free_port()}"
        words = ["--exchange", self.peer, "--rounds", "1000"] if self.exchanges else []
        self.process = subprocess.Popen(
            [self.program, "serve", self.path, "--listen", f"127.0.0.1:{self.port}", "--workers", "4",
             "--each", "100000", *words, *self.options],
            stdin=subprocess.PIPE, stdout=subprocess.PIPE, stderr=subprocess.PIPE)
        wanted = [f"listening 127.0.0.1:{self.port}\n"] + [f"exchanging {self.peer}\n"] * self.exchanges
        for line in wanted:
            found = self.process.stdout.readline().decode()
            if found != line:
                self.process.kill()
                raise RuntimeError(f"the archive did not listen: {found!r} {self.process.stderr.read()!r}")

    def command(self, *words):
        """The status and the output of another command."""
        return client(self.program, *words)

    def kill(self):
        self.process.send_signal(signal.SIGKILL)
        self.process.wait()

    def restart(self):
        self.kill()
        self.start()

    def at(self):
        return ["127.0.0.1", str(self.port)]

    def store(self, *words):
        return client("storescu", "-aec", "ARCHIVE", *words[:1], *self.at(), *words[1:])

    def find(self, title, *keys):
        """The rows that findscu prints, each as its values by tag, and what went wrong."""
        words = [w for k in keys for w in ("-k", k)]
        status, text = client("findscu", "-S", "-aec", title, *words, *self.at())
        rows = []
        for part in re.split(r"(?m)^.*# Dicom-Data-Set.*$", text)[1:]:
            row = {}
            for m in re.finditer(
                    r"(?m)^.*\(([0-9a-f]{4}),([0-9a-f]{4})\) \w\w (?:\[([^\]]*)\]|(=\w+)|\(no value.*)", part):
                # A UID is printed with its padding, or by its name.
                row[f"{m.group(1)},{m.group(2)}"] = (m.group(3) or m.group(4) or "").strip("\0 ")
            rows.append(row)
        return rows, "" if status == 0 else f"findscu ended with {status}: {text[-300:]}"

    def get(self, title, folder, *keys):
        """The files that getscu wrote, as their transfer syntaxes and data sets by instance."""
        os.makedirs(folder, exist_ok=True)
        words = [w for k in keys for w in ("-k", k)]
        status, text = client("getscu", "-S", "+B", "-aec", title, "-od", folder, *words, *self.at())
        found = {}
        for name in os.listdir(folder):
            with open(os.path.join(folder, name), "rb") as f:
                syntax, data = of_part10(f.read())
            values = elements(data, syntax == EXPLICIT)
            found[values[0x00080018].rstrip(b"\0").decode()] = (syntax, data)
        return found, "" if status == 0 else f"getscu ended with {status}: {text[-300:]}"


def study_of(instance):
    return instance.rsplit(".", 2)[0]


class Files:
    """The images that are stored, by instance: their data sets in the implicit syntax."""

    def __init__(self, folder):
        self.folder, self.sent, self.notes = folder, {}, 0

    def make(self, study, series, instance, size, explicit, patient="P1", name="DOE^JANE"):
        pixels, more = os.urandom(size // 2 * 2), [
            (0x00080020, b"DA", b"20240229"), (0x00080030, b"TM", b"101530"),
            (0x00080050, b"SH", b"ACC1"), (0x00080090, b"PN", padded("ROE^ANN")),
            (0x00081030, b"LO", b"HEAD"), (0x0008103E, b"LO", padded("AXIAL")),
            (0x00100030, b"DA", b"19700101"), (0x00100040, b"CS", b"F "),
            (0x00200010, b"SH", b"ST1 "), (0x00200011, b"IS", b"1 "),
            (0x00200013, b"IS", padded(instance.rsplit(".", 1)[1]))]
        data = image(study, series, instance, patient, name, pixels, explicit, more)
        path = os.path.join(self.folder, instance + ".dcm")
        with open(path, "wb") as f:
            f.write(part10(data, instance, explicit))
        # To getscu, which proposes both syntaxes as a provider, each goes out in the implicit one.
        self.sent[instance] = image(study, series, instance, patient, name, pixels, False, more)
        return path

    def studies(self):
        return sorted({study_of(i) for i in self.sent})

    def of_study(self, study):
        return {i: d for i, d in self.sent.items() if study_of(i) == study}

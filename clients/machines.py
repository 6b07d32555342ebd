"""What figures are of: the machine, the programs and the commit."""
import os
import re
import subprocess


def line_of(path, start):
    """What stands behind a colon or an equals sign in the first line of a file that starts so."""
    with open(path, encoding="utf-8") as f:
        lines = [line for line in f if line.startswith(start)]
    return re.split("[:=]", lines[0], maxsplit=1)[1].strip().strip('"') if lines else ""


def said_by(*words):
    done = subprocess.run(words, stdout=subprocess.PIPE, stderr=subprocess.DEVNULL, text=True, check=False)
    return done.stdout.strip()


def file_system(folder):
    """The kind of file system that a folder is in."""
    return said_by("findmnt", "-n", "-o", "FSTYPE", "-T", folder) or "unknown"


def version_of(package):
    return said_by("dpkg-query", "-W", "-f", "${Version}", package) or "not installed"


def proof_of(program, is_proved):
    """Whether a program was built with its proof, in words, where it is not known to have been."""
    if is_proved:
        return "built with its proof"
    with open(program, "rb") as f:
        if b"__asan" in f.read():
            return "built without its proof, with an address sanitizer and unoptimized: no figure is the archive's"
    return "it is not known whether it was built with its proof"


def machine(top, folder, program, is_proved):
    """What figures are of, each line by its name: the program of a checkout, with its files in a folder."""
    memory = int(line_of("/proc/meminfo", "MemTotal").split()[0]) * 1024 / 1e9
    changed = said_by("git", "-C", top, "status", "--porcelain", "--", "crates")
    return {
        "processors": f"{os.cpu_count()}, {line_of('/proc/cpuinfo', 'model name')}",
        "SHA instructions": "yes" if "sha_ni" in line_of("/proc/cpuinfo", "flags").split() else "no",
        "memory": f"{memory:.1f} GB",
        "file system": file_system(folder),
        "system": f"{line_of('/etc/os-release', 'PRETTY_NAME=')}, Linux {os.uname().release}",
        "peers": f"DCMTK {version_of('dcmtk')}, Orthanc {version_of('orthanc')}",
        "program": proof_of(program, is_proved),
        "commit": said_by("git", "-C", top, "rev-parse", "--short=12", "HEAD") + (" with changes" if changed else ""),
    }

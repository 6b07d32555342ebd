"""What the scripts here ask the system for: a free port, and what a process holds and takes (proc(5))."""
import os
import socket


def free_port():
    """A port of loopback that nobody listens at."""
    with socket.socket() as s:
        s.bind(("127.0.0.1", 0))
        return s.getsockname()[1]


def resident(pid, line="VmRSS"):
    """The resident bytes of a process, with the line `VmHWM` the most that they were."""
    with open(f"/proc/{pid}/status", encoding="ascii") as state:
        for text in state:
            if text.startswith(line + ":"):
                return int(text.split()[1]) * 1024
    raise ProcessLookupError(f"no {line} of process {pid}")


def processor(pid):
    """The seconds that the processors gave a process."""
    with open(f"/proc/{pid}/stat", encoding="ascii") as state:
        fields = state.read().rsplit(")", 1)[1].split()
    return (int(fields[11]) + int(fields[12])) / os.sysconf("SC_CLK_TCK")

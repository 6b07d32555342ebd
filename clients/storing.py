"""Stores many images fast, for the scripts that measure: over several associations, each in a process of its own.

The message of a C-STORE is made once, and written over with the UIDs, the Patient ID and the name of each image: these
are of fixed lengths. Studies are numbered from 0, and so are the images of each; each study has a patient of its own.
"""
import multiprocessing
import os
import struct
import time

from dicom import CT_IMAGE, EXPLICIT, Association, image, padded

FORK = multiprocessing.get_context("fork")
FIRST_STUDY, FIRST_PLACE, FIRST_NAME, NAMES = 100_000_000, 10_000, 1000, 4000
# How many octets of pixels an image has that takes 2 KB, and one that takes 512.
SIZES = {"2 KB": 1800, "512 KB": 524_288}


def study_of(prefix, study):
    return f"{prefix}.{FIRST_STUDY + study}"


def series_of(prefix, study):
    return study_of(prefix, study) + ".1"


def instance_of(prefix, study, place):
    return f"{series_of(prefix, study)}.{FIRST_PLACE + place}"


def patient_of(study):
    return f"P{FIRST_STUDY + study}"


def places(text, word):
    """Where a word stands in a text."""
    found = [text.find(word)]
    while found[-1] >= 0:
        found.append(text.find(word, found[-1] + 1))
    return found[:-1]


class Storer:
    """An association that stores images of so many octets of pixels."""

    def __init__(self, port, prefix, size):
        self.link = Association(("127.0.0.1", port), "ARCHIVE", [(CT_IMAGE, [EXPLICIT])], timeout=600)
        instance, name = instance_of(prefix, 0, 0), f"DOE{FIRST_NAME}"
        data = image(study_of(prefix, 0), series_of(prefix, 0), instance, patient_of(0), name + "^JANE",
                     os.urandom(size // 2 * 2), True,
                     [(0x00080020, b"DA", b"20240229"), (0x00081030, b"LO", padded("HEAD"))])
        self.message = bytearray(self.link.store_request(instance, data, EXPLICIT))
        head = bytes(self.message[:len(self.message) - size // 2 * 2])[:2000]
        self.studies = places(head, str(FIRST_STUDY).encode())
        self.places = [at + len(instance) - 5 for at in places(head, instance.encode())]
        self.names = [at + 3 for at in places(head, name.encode())]
        if (len(self.studies), len(self.places), len(self.names)) != (5, 2, 1):
            raise ValueError("the message can't be written over")

    def store(self, study, place):
        """The status of a store of an image."""
        for at in self.studies:
            self.message[at:at + 9] = b"%d" % (FIRST_STUDY + study)
        for at in self.places:
            self.message[at:at + 5] = b"%d" % (FIRST_PLACE + place)
        for at in self.names:
            self.message[at:at + 4] = b"%d" % (FIRST_NAME + study % NAMES)
        self.link.socket.sendall(self.message)
        return struct.unpack("<H", self.link.receive()[1][0x0900])[0]


class Filling:
    """Stores so many images of each of so many studies; `samples` tells how many were stored after so many seconds."""

    def __init__(self, port, prefix, studies, each, size, ways):
        self.studies, self.each, self.ways = studies, each, ways
        self.storer = lambda: Storer(port, prefix, size)
        self.counts, self.refused = (FORK.Array("Q", ways, lock=False) for _ in range(2))
        self.ends, self.ready = FORK.Array("d", ways, lock=False), FORK.Barrier(ways + 1)
        self.samples = [(0.0, 0)]

    def part(self, way):
        """Stores each study whose turn is this way's."""
        storer = self.storer()
        self.ready.wait(60)
        for study in range(way, self.studies, self.ways):
            for place in range(self.each):
                self.refused[way] += storer.store(study, place) != 0
                self.counts[way] += 1
        self.ends[way] = time.perf_counter()
        storer.link.release()

    def run(self, watch=None):
        """Stores them all; `watch` is called with the seconds and the count, some times a second."""
        parts = [FORK.Process(target=self.part, args=(way,)) for way in range(self.ways)]
        for part in parts:
            part.start()
        self.ready.wait(60)
        begin = time.perf_counter()
        while any(part.is_alive() for part in parts):
            time.sleep(0.1)
            self.samples.append((time.perf_counter() - begin, sum(self.counts)))
            if watch:
                watch(*self.samples[-1])
        for part in parts:
            part.join()
        if sum(self.refused) or any(part.exitcode for part in parts):
            raise RuntimeError(f"of {sum(self.counts)} images {sum(self.refused)} were refused, and "
                               f"{sum(part.exitcode != 0 for part in parts)} associations broke")
        whole = self.studies * self.each
        self.samples = [sample for sample in self.samples if sample[1] < whole] + [(max(self.ends) - begin, whole)]
        return self

    def rate(self, since=0.0, until=1.0):
        """Images a second, while the images between these shares of all were stored."""
        whole = self.studies * self.each
        first = next(sample for sample in self.samples if sample[1] >= since * whole)
        last = next(sample for sample in self.samples if sample[1] >= until * whole)
        return (last[1] - first[1]) / max(last[0] - first[0], 1e-9)

"""The outcomes of a script that tries the archive: a line for each, and how many passed and failed."""
passed = failed = 0


def told(what, fault, seen=""):
    """Counts an outcome: `fault` is empty where all is well, and `seen` is said then."""
    global passed, failed
    if fault:
        failed += 1
        print(f"FAILED {what}: {fault}", flush=True)
    else:
        passed += 1
        print(f"ok {what}{seen and f': {seen}'}", flush=True)


def counts():
    return passed, failed


def same(found, wanted):
    return "" if found == wanted else f"got {found}, not {wanted}"


def ended():
    """Prints the last line, and gives the status."""
    print(f"{passed} passed, {failed} failed")
    return 1 if failed else 0

"""What the system says of a process: it is asked under /proc, and needs no help of the program."""


def words_of(path: str) -> dict[str, int]:
    """The numbers of a file of lines `name: number ..`, or none where it can't be read."""
    found = {}
    try:
        with open(path, encoding="ascii", errors="replace") as file:
            for line in file:
                name, _, rest = line.partition(":")
                number = rest.split()[:1]
                if number and number[0].isdigit():
                    found[name] = int(number[0])
    except OSError:
        return {}
    return found


def bytes_read(process: int) -> int | None:
    """How many bytes a process has read from files so far."""
    return words_of(f"/proc/{process}/io").get("rchar")


def memory(process: int) -> int | None:
    """How many bytes of memory a process holds."""
    held = words_of(f"/proc/{process}/status").get("VmRSS")
    return None if held is None else 1024 * held

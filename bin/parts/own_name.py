"""A file for each log under one folder, named for the log: with a number behind the name where that is another log's; and how it is written."""
import os


def owns(log, folder, name, suffix):
    """Whether the file of this name is the log's. A file beside it has the path of its log, and is made where the name is free."""
    beside = folder / f"{name}.log"
    if not (folder / f"{name}{suffix}").exists() and not beside.exists():
        part = folder / f".{name}.{os.getpid()}"
        part.write_bytes(os.fsencode(log))
        try:
            os.link(part, beside)  # whole or not at all
        except FileExistsError:
            pass  # another has just taken the name
        part.unlink()
    return beside.is_file() and beside.read_bytes() == os.fsencode(log)


def own_name(log, folder, suffix):
    """The log's own file in the folder, which is made where it is missing."""
    folder.mkdir(parents=True, exist_ok=True)
    log = log.parent.resolve() / log.name
    name, count = log.name, 1
    while not owns(log, folder, name, suffix):
        count += 1
        name = f"{log.name}-{count}"
    return folder / f"{name}{suffix}"


def written_whole(place, octets):
    """Writes a file, whole or not at all; where it is."""
    part = place.with_name(f"{place.name}.{os.getpid()}")
    part.write_bytes(octets)
    return part.replace(place)

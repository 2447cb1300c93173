"""Files by their names at a program's standard input, each name being bytes, which are text: Rattle's library opens none that is not UTF-8."""


def opened(name):
    """The bytes of the file of a name; None where it cannot be opened, or not be read."""
    try:
        name.decode("utf-8")
        with open(name, "rb") as file:
            return file.read()
    except (OSError, ValueError):
        return None


def all_opened(given, many):
    """The bytes of so many files, by their names at the standard input, each ended by a newline; None where there are not exactly so many names,
    or one of them cannot be opened."""
    *names, rest = given.split(b"\n")
    if len(names) != many or rest:
        return None
    texts = [opened(name) for name in names]
    return None if None in texts else texts


def both_opened(given):
    """The bytes of two files likewise."""
    return all_opened(given, 2)

"""The types of the Debug Adapter Protocol, by the rows of tests/answers/protocol.tsv, which were written from the
protocol's page and know nothing of ssdap."""
from programs import text_of

# What a word of a row is, and the numbers that may be references.
KINDS = {"text": str, "number": int, "flag": bool, "null": type(None)}
REFERENCES = range(2**31)


def rows():
    """Returns the members of each type: what each is, and whether it must be there."""
    found = {}
    for line in text_of("tests/answers/protocol.tsv").splitlines():
        if not line.startswith("#"):
            name, member, kind, needed = line.split("\t")
            found.setdefault(name, {})[member] = kind, bool(needed)
    return found


TYPES = rows()


def is_one(value, kind):
    """Whether a value is one of a kind that is no type and no list."""
    if kind == "reference":
        return type(value) is int and value in REFERENCES
    if kind.startswith("'"):
        return value == kind.strip("'")
    return kind == "any" or type(value) is KINDS[kind]


def misfits(value, kind, at):
    """Yields where a value is not of a kind."""
    if kind.startswith("["):
        if type(value) is not list:
            yield f"{at} is no list"
        else:
            for number, it in enumerate(value):
                yield from misfits(it, kind[1:-1], f"{at}[{number}]")
    elif kind in TYPES:
        yield from misfits_of(value, kind, at)
    elif not any(is_one(value, it) for it in kind.split("|")):
        yield f"{at} is no {kind}: {value!r}"


def misfits_of(value, name, at):
    """Yields where a value is not of a type: it is no object, or a member is not there, or is another."""
    if type(value) is not dict:
        yield f"{at} is no {name}"
        return
    known = TYPES[name]
    yield from (f"{at} has no {it}" for it, (_, needed) in known.items() if needed and it not in value)
    for member, it in value.items():
        if member not in known:
            yield f"{at} has {member}, which {name} has not"
        else:
            yield from misfits(it, known[member][0], f"{at}.{member}")


def body_name(message):
    """Returns the name of the type of the body of a message; None for a request that is refused."""
    if message.get("type") == "event":
        return f"event {message.get('event')}"
    return f"reply {message.get('command')}" if message.get("success") else None


def wrong(message):
    """Yields what is wrong with a message of an adapter."""
    shape = "event" if message.get("type") == "event" else "response"
    named = {key: it for key, it in message.items() if key in TYPES["message"]}
    yield from misfits(named, "message", "message")
    yield from misfits({key: it for key, it in message.items() if key not in named}, shape, "message")
    name = body_name(message)
    if name is None and "message" not in message:
        yield "it is refused without a message"
    elif name is not None and name not in TYPES:
        yield f"{name} is unknown"
    elif name is not None:
        yield from misfits(message.get("body", {}), name, name)


def unclaimed(commands, capabilities):
    """Yields the requests that were granted though no capability says that they may be sent."""
    needs = TYPES["needs"]
    yield from (it for it in commands if it in needs and not capabilities.get(needs[it][0]))

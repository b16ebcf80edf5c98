"""The forms of what SHOW answers, as docs/DEBUGGER.md and docs/PROMPT.md have them, and the value that HISTORY, WHY and
a trace are to tell of an answer."""
import re

# What says that there is no such thing.
NONE = re.compile(rb"NO (CLASS|ENTITY|ATTRIBUTE|SET|VARIABLE|EVENTS)\b")
# The answer to each form of a question, as an expression: {names} are the words behind the question's first. A list
# without its number has one in its answer, unless it is the system's. Only ssdb answers TAKEN with the next pieces too,
# and EVENTS with the rows of the notices.
FORMS = {
    r"VAR \S+": r"{names} = (?P<value>\S+)\n",
    r"SET \S+": r"{names}( \d+)?: (?P<value>.+)\n",
    r"SET \S+ \d+": r"{names}: (?P<value>.+)\n",
    r"COUNT \S+": r"COUNT {names}( \d+)?: (?P<value>\d+)\n",
    r"COUNT \S+ \d+": r"COUNT {names}: (?P<value>\d+)\n",
    r"CLOCK": r"CLOCK (?P<value>-?\d+)\n",
    r"TAKEN": r"TAKEN (?P<value>\d+)\n((NEXT ON LINE \d+: .+|NO PIECE IS LEFT)\n)?",
    r"ENTRY": r"ENTRY (?P<value>NONE|\S+ \d+ (WAITING|RUNNING))\n",
    r"WHERE": r"(?P<value>STATE \d+ CLOCK .+)\n",
    r"EVENTS": r"(?P<value>(\S+ \d+ AT \d+\n)+)(\S+ \d+: .+\n)*",
    r"REPORT": r"REPORT\n(?P<value>(.|\n)*)",
    r"\S+ \d+": r"{question}\n(?P<value>( ?\S+ = \S+\n)*)",
    r"\S+ \d+ \S+": r"{attribute} = (?P<value>\S+)\n",
}


def form(question):
    """Returns the expression of what SHOW answers to a question, if there is such a thing."""
    first, *rest = question.split()
    names = {"question": question, "names": " ".join(rest), "attribute": rest[-1] if rest else ""}
    told = next(it for pattern, it in FORMS.items() if re.fullmatch(pattern, question))
    return re.sub(r"\{(\w+)\}", lambda it: re.escape(names[it[1]]), told).encode()


def value(question, answer):
    """Returns the value that is told of an answer of SHOW, which has its form: NONE where there is no such thing, of a
    report its size, of several lines these in one."""
    if NONE.match(answer):
        return b"NONE"
    found = re.fullmatch(form(question.decode()), answer)
    if not found:
        raise ValueError(f"SHOW {question.decode()} answers {answer[:200]!r}")
    if question == b"REPORT":
        return b"%d BYTES" % len(found["value"])
    return b", ".join(found["value"].splitlines()) or b"LIVES"

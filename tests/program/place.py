"""Rows of `place`."""
from checks.lib.rows import Row
from tests.program.texts import ANSWERS, CALLS, COMMANDS, JOBS, MOST, NO_HEADER, answered, refused


def given(rows):
    """Returns the commands that these rows answer: a free names no dimension."""
    fields = (row.split(",") for row in rows)
    return [f"{word},{name},{dim if word == 'take' else '-'}" for word, name, dim, *_ in fields]


# The dimension, and the rows of the answer. A command is the first fields of its row, in a free with a dash.
PLACES = {
    "no commands": ("3", ""),
    "takes and frees": ("3",
        "take,a,1,0,given take,b,0,2,given take,c,1,4,given free,b,0,2,freed take,d,1,2,given take,e,2,-,nosubcube "
        "free,a,1,0,freed free,c,1,4,freed free,d,1,2,freed take,f,3,0,given"),
    "four free processors, none aligned": ("3",
        "take,a,1,0,given take,b,1,2,given take,c,1,4,given take,d,1,6,given free,b,1,2,freed free,c,1,4,freed "
        "take,e,2,-,nosubcube"),
    "each outcome but one": (
        "1", "take,a,0,0,given take,a,1,-,held free,b,-,-,nothingheld take,b,1,-,nosubcube free,a,0,0,freed"),
    "48 names hold regions": (
        "12", [f"take,a{at},0,{at},given" for at in range(48)] + ["take,a48,0,-,nostation", "take,a0,0,-,held"]),
    "48 names hold regions, and one gives its back": ("12",
        [f"take,{at},0,{at},given" for at in range(48)] + """take,x,12,-,nostation take,x,0,-,nostation take,0,0,-,held
        free,7,0,7,freed take,x,0,7,given take,y,0,-,nostation""".split()),
    # against another order of outcomes than held, nostation, nosubcube
    "48 names hold the whole machine": (
        "6",
        [f"take,{at},1,{2 * at},given" for at in range(16)] + [f"take,{at},0,{16 + at},given" for at in range(16, 48)]
        + """take,x,0,-,nostation take,x,6,-,nostation take,3,0,-,held take,3,6,-,held free,x,-,-,nothingheld
        free,20,0,36,freed take,x,1,-,nosubcube take,x,0,36,given take,y,0,-,nostation free,47,0,63,freed
        take,47,0,63,given""".split(),
    ),
    # against names that are cut short, and names that are taken for numbers
    "names of 15 and 16 letters": ("2",
        "take,abcdefghijklmno,0,0,given take,abcdefghijklmnop,0,1,given take,abcdefghijklmnoq,0,2,given "
        "free,abcdefghijklmnop,0,1,freed take,0123456789012345,0,1,given"),
    "names that are digits": (
        "1", "take,0,0,0,given free,00,-,-,nothingheld take,00,0,1,given free,0,0,0,freed free,000,-,-,nothingheld"),
    # against a region that is not the first one: the tightest one, or the next one
    "a tighter region comes later": ("3",
        "take,a,2,0,given take,b,0,4,given free,a,2,0,freed take,c,0,0,given free,c,0,0,freed take,d,0,0,given "
        "take,e,1,2,given"),
    "a hundred names, one after the other": (
        "2", [row for at in range(100) for row in (f"take,n{at},2,0,given", f"free,n{at},2,0,freed")]),
    "a million commands": ("0", ["free,a,-,-,nothingheld"] * MOST),
}

# The fault, and the lines after the header, at dimension 3.
REFUSED = {
    "no byte": ("record 0: Fields", NO_HEADER),
    "a header with another text": ("record 0: Word", NO_HEADER, "command,name,dims"),
    "a command too many": ("record 1000001: TooMany", *["free,a,-"] * (MOST + 1)),
    "a capital letter": ("Word", "take,A,1"),
    "17 letters": ("Word", "take,abcdefghijklmnopq,1"),
    "no letter": ("Word", "take,,1"),
    "a dimension above the machine's": ("Number", "take,a,4"),
    "a dimension above the machine's after a good record": ("record 2: Number", "take,a,1", "take,b,4"),
    "a free with a dimension": ("Word", "free,a,0"),
    "no such command": ("Word", "give,a,0"),
    "two fields": ("Fields", "take,a"),
    "one field": ("Fields", "take"),
    "four fields": ("Fields", "take,a,1,"),
    "a command in capital letters": ("Word", "TAKE,a,1"),
    "a name before a dimension": ("Word", "take,A,4"),
    # against names as other rules allow them
    "no letter, and a free": ("Word", "free,,-"),
    "17 digits": ("Word", "free,01234567890123456,-"),
    "a letter of another alphabet": ("Word", "take,é,1"),
    "an underscore": ("Word", "take,a_b,1"),
    "a space before a name": ("Word", "take, a,1"),
    "NUL after a name": ("Word", "take,a\x00,1"),
    "a doubled quote in a name": ("Word", 'take,"a""b",1'),
    "a quote within a name": ("Word", 'take,a"b,1'),
    "a line end within quotes in a name": ("Word", 'take,"a\n",1'),
    "a line of # after the header": ("Word", "# take,a,1"),
    # against dimensions that are cut to 8 or 32 bits, and a dash that stands for any of them
    "dimension 256": ("Number", "take,a,256"),
    "dimension 2^32": ("Number", "take,a,4294967296"),
    "a take with a dash": ("Number", "take,a,-"),
    "a free with nothing": ("Word", "free,a,"),
    "the header of jobs": ("record 0: Fields", NO_HEADER, JOBS),
    "the header of schedules": ("record 0: Word", NO_HEADER, CALLS),
}


def rows(program):
    for name, (n, out) in PLACES.items():
        out = out.split() if isinstance(out, str) else out
        yield Row(f"place: {name}", *answered(program, f"place --dim {n}", COMMANDS, given(out), ANSWERS, out))
    yield from refused(program, "place", REFUSED)

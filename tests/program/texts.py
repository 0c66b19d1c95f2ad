"""What the rows of all commands share: headers, files of one job, and rows of tables."""
from checks.lib.repository import version_of_sources
from checks.lib.rows import Row, must_answer

VERSION = f"cubejobs {version_of_sources()}\n"
JOBS, REPLIES = "lane,kind,op,root,items", "lane,seq,kind,dim,result,rounds,messages"
VALUES = "lane,seq,place,value"
TOTALS = "group,key,count,processors,idle"
COMMANDS, ANSWERS = "command,name,dim", "command,name,dim,base,outcome"
CALLS, EVENTS = "station,call,arg", "station,event,node,word,note"
# Each command with the words that it needs at dimension 3, and the header of its input.
HEADERS = {"run": JOBS, "report": JOBS, "place": COMMANDS, "replay --stations 1": CALLS}
# The most records of a file. NO_HEADER begins the lines of a file that a row gives as a whole.
MOST, NO_HEADER = 1_000_000, None
# A file of one job that `run` answers at dimension 3, and one that it refuses.
GOOD, BAD, REPLY = f"{JOBS}\n0,scan,add,0,7\n", f"{JOBS}\n0,scan,plus,0,7\n", f"{REPLIES}\n0,0,scan,0,7,0,0\n"
READ, WRITE = "failed: record 0: Read\n", "failed: record 0: Write\n"


def many(count, item):
    """Returns a list of equal items, as it stands in a field."""
    return " ".join([str(item)] * count)


def first(count, start=0):
    """Returns the list of this many numbers from `start` on, as it stands in a field."""
    return " ".join(str(number) for number in range(start, start + count))


def lines_of(text):
    """Returns the lines that a row gives: a list, or a text with semicolons between them."""
    return [line.strip() for line in text.split(";") if line.strip()] if isinstance(text, str) else text


def text_of(header, lines):
    return "".join(f"{line}\n" for line in [header, *lines_of(lines)])


def answered(program, words, header, given, of, out):
    """Returns the row of a file that is answered: its lines, and the lines of the answer."""
    command = [program, *words.split()]
    return must_answer, (command, text_of(header, given), 0, text_of(of, out), "")


def refused(program, command, table):
    """Yields rows of refused files: status 1, one line of errors, no output. A fault with no record is of the first."""
    for name, (fault, *lines) in table.items():
        bare = lines[:1] == [NO_HEADER]
        given = "".join(f"{line}\n" for line in (lines[1:] if bare else [HEADERS.get(command, JOBS), *lines]))
        told = fault if fault.startswith("record") else f"record 1: {fault}"
        words = [program, *command.split(), "--dim", "3"]
        yield Row(f"{command}: {name}", must_answer, (words, given, 1, "", f"refused: {told}\n"))

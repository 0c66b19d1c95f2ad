"""Rows of `replay`."""
from checks.lib.repository import read
from checks.lib.rows import Row
from tests.program.texts import CALLS, EVENTS, MOST, NO_HEADER, answered, refused


def example(name):
    """Returns the calls of a schedule of examples/."""
    return read("examples", "schedules", f"{name}.csv").splitlines()[1:]


def of_stations(text, dash=""):
    """Returns the lines of a text in which `0: a b; 1: c` is a and b of station 0, then c of station 1. A call with no
    argument has a dash for it."""
    parts = [part.partition(":") for part in text.split(";")]
    return [f"{at.strip()},{word}{'' if ',' in word else dash}" for at, _, words in parts for word in words.split()]


RIGHT_SIDES = [4095, 2047, 1023, 511, 255, 127, 63, 31, 15, 7, 3, 1]
LAST_NODE = (
    "0: refused,8192,-,notincube look,8191,-,free claim,8191,OLR,climb "
    + " ".join(f"sweep,{node},-,ok raise,{node},R,{'held' if node == 1 else 'climb'}" for node in RIGHT_SIDES)
    + "; -: " + " ".join(f"end,{node},R,-" for node in reversed(RIGHT_SIDES)) + " end,8191,OLR,- end,-,-,13"
)
# The dimension, the stations, the calls, and the events and last rows that they make.
REPLAYS = {
    "no calls": ("3", "1", "", "-: end,-,-,0"),
    "a station goes on while another has the node": ("2", "4", example("overtaken-release"),
        """0: look,4,-,free claim,4,OLR,climb sweep,2,-,ok raise,2,L,climb sweep,1,-,ok raise,1,L,held
        zero,4,-,climb; 1: look,4,-,free claim,4,OLR,climb sweep,2,L,ok raise,2,L,climb sweep,1,L,ok
        raise,1,L,held zero,4,-,climb unmark,2,L,ok mark,2,L+1,ok; 0: unmark,2,L,ok mark,2,L+0,ok child,4,-,free
        child,5,-,free clear,2,-,climb; 2: look,5,-,free claim,5,OLR,climb sweep,2,-,ok raise,2,R,climb
        sweep,1,L,ok raise,1,L,held; 1: child,4,-,free child,5,OLR,used clear,2,R,lost; 0: unmark,1,L,ok
        mark,1,L+0,ok child,2,R,used child,3,-,free clear,1,L,keep; 3: look,1,L,inuse; 2: zero,5,-,climb
        unmark,2,R,ok mark,2,R+2,ok child,4,-,free child,5,-,free clear,2,-,climb unmark,1,L,ok mark,1,L+2,ok
        child,2,-,free child,3,-,free clear,1,-,done; -: end,-,-,0"""),
    "a roll-back under a node that others take": ("2", "3", example("roll-back"),
        """1: look,2,-,free claim,2,OLR,climb sweep,1,-,ok raise,1,L,held; 0: look,4,-,free claim,4,OLR,climb
        sweep,2,OLR,ok raise,2,OLR,under; 1: zero,2,-,climb unmark,1,L,ok mark,1,L+1,ok child,2,-,free
        child,3,-,free clear,1,-,done; 2: look,5,-,free claim,5,OLR,climb sweep,2,-,ok raise,2,R,climb
        sweep,1,-,ok raise,1,L,held; 0: zero,4,-,climb unmark,2,R,ok mark,2,R+0,ok child,4,-,free;
        2: zero,5,-,climb unmark,2,R,ok mark,2,R+2,ok child,4,-,free child,5,-,free clear,2,-,climb unmark,1,L,ok
        mark,1,L+2,ok child,2,-,free child,3,-,free clear,1,-,done; 0: child,5,-,free clear,2,-,lost; -: end,-,-,0"""),
    "a station marks a node anew": ("3", "3", example("three-marks"),
        """0: look,4,-,free claim,4,OLR,climb sweep,2,-,ok raise,2,L,climb sweep,1,-,ok raise,1,L,held;
        2: look,7,-,free claim,7,OLR,climb sweep,3,-,ok raise,3,R,climb sweep,1,L,ok raise,1,LR,held
        zero,7,-,climb unmark,3,R,ok mark,3,R+2,ok child,6,-,free child,7,-,free clear,3,-,climb; 1: look,6,-,free
        claim,6,OLR,climb sweep,3,-,ok raise,3,L,climb sweep,1,LR,ok raise,1,LR,held zero,6,-,climb unmark,3,L,ok
        mark,3,L+1,ok child,6,-,free child,7,-,free clear,3,-,climb unmark,1,LR,ok; 2: unmark,1,LR,ok
        mark,1,LR+2,ok; 1: mark,1,LR+1+2,ok child,2,L,used child,3,-,free; 2: child,2,L,used child,3,-,free
        clear,1,LR+1+2,lost look,8,-,free claim,8,OLR,climb sweep,4,OLR,ok raise,4,OLR,under; 0: zero,4,-,climb
        unmark,2,L,ok mark,2,L+0,ok; 2: zero,8,-,climb unmark,4,-,ok mark,4,-+2,ok child,8,-,free child,9,-,free
        clear,4,-,climb unmark,2,L,ok mark,2,L+2,ok child,4,-,free child,5,-,free clear,2,-,climb unmark,1,LR,ok
        mark,1,LR+2,ok; 1: clear,1,LR+2,lost; 2: child,2,-,free child,3,-,free clear,1,-,done; 0: child,4,-,free
        child,5,-,free clear,2,-,lost; -: end,-,-,0"""),
    "a word with a mark alone is claimed": ("1", "3", example("root-taken-again"),
        """1: look,1,-,free claim,1,OLR,held; 0: look,2,-,free claim,2,OLR,climb sweep,1,OLR,ok raise,1,OLR,under;
        1: zero,1,-,done; 0: zero,2,-,climb unmark,1,-,ok mark,1,-+0,ok; 2: look,1,-+0,free claim,1,OLR,held;
        0: child,2,-,free child,3,-,free clear,1,OLR,lost; 2: zero,1,-,done; -: end,-,-,0"""),
    # against a claim that overwrites what came after the look: a holder, a side, a mark. A word that is as the look
    # found it is claimed, whatever it was between.
    "a claim that must lose": ("0", "2", "0: take,1 step,1; 1: take,1 run; 0: run take,1 run",
        """0: look,1,-,free; 1: look,1,-,free claim,1,OLR,held; 0: claim,1,OLR,lost look,1,OLR,inuse; -: end,1,OLR,-
        end,-,-,1"""),
    "a claim that must lose to a side": ("1", "2", "0: take,1 step,1; 1: take,3 run; 0: step,1 step,1",
        """0: look,1,-,free; 1: look,3,-,free claim,3,OLR,climb sweep,1,-,ok raise,1,R,held; 0: claim,1,R,lost
        refused,-,-,resting; -: end,1,R,- end,3,OLR,- end,-,-,2"""),
    "a claim that must lose to a mark": (
        "1", "3", "1: take,1 run; 0: take,2 step,4; 1: release run; 2: take,1 step,1; 0: step,3; 2: run; 0: run",
        """1: look,1,-,free claim,1,OLR,held; 0: look,2,-,free claim,2,OLR,climb sweep,1,OLR,ok raise,1,OLR,under;
        1: zero,1,-,done; 2: look,1,-,free; 0: zero,2,-,climb unmark,1,-,ok mark,1,-+0,ok; 2: claim,1,-+0,lost;
        0: child,2,-,free child,3,-,free clear,1,-,done; -: end,-,-,0"""),
    "a claim of a word that is as before": ("0", "2", "0: take,1 step,1; 1: take,1 run release run; 0: run release run",
        """0: look,1,-,free; 1: look,1,-,free claim,1,OLR,held zero,1,-,done; 0: claim,1,OLR,held zero,1,-,done;
        -: end,-,-,0"""),
    # against a release that goes on at a word that another station has taken meanwhile
    "a mark at an occupied word": ("1", "3",
        """0: take,2 run; 1: take,3 run; 0: release step,1; 1: release run; 2: take,1 run; 0: run take,1 run;
        2: release run""",
        """0: look,2,-,free claim,2,OLR,climb sweep,1,-,ok raise,1,L,held; 1: look,3,-,free claim,3,OLR,climb
        sweep,1,L,ok raise,1,LR,held; 0: zero,2,-,climb; 1: zero,3,-,climb unmark,1,LR,ok mark,1,LR+1,ok
        child,2,-,free child,3,-,free clear,1,-,done; 2: look,1,-,free claim,1,OLR,held; 0: unmark,1,OLR,ok
        mark,1,OLR+0,stop look,1,OLR+0,inuse; 2: zero,1,-,done; -: end,-,-,0"""),
    # against a child that counts as used because its word is not 0: a word with a mark alone is free
    "a child with a mark alone": (
        "2", "2", "1: take,2 run; 0: take,4 step,4; 1: release step,1; 0: step,3; 1: run; 0: run",
        """1: look,2,-,free claim,2,OLR,climb sweep,1,-,ok raise,1,L,held; 0: look,4,-,free claim,4,OLR,climb
        sweep,2,OLR,ok raise,2,OLR,under; 1: zero,2,-,climb; 0: zero,4,-,climb unmark,2,-,ok mark,2,-+0,ok;
        1: unmark,1,L,ok mark,1,L+1,ok child,2,-+0,free child,3,-,free clear,1,-,done; 0: child,4,-,free
        child,5,-,free clear,2,-,climb unmark,1,-,ok mark,1,-+0,ok child,2,-,free child,3,-,free clear,1,-,done;
        -: end,-,-,0"""),
    # against ends of the nodes in use alone: a word with a mark alone is not 0, and has its row
    "an end with a mark alone": ("1", "2", "1: take,1 run; 0: take,2 step,4; 1: release run; 0: step,3",
        """1: look,1,-,free claim,1,OLR,held; 0: look,2,-,free claim,2,OLR,climb sweep,1,OLR,ok raise,1,OLR,under;
        1: zero,1,-,done; 0: zero,2,-,climb unmark,1,-,ok mark,1,-+0,ok; -: end,1,-+0,- end,-,-,1"""),
    # against a sweep that leaves marks: a take on its way up takes that of a release away, which then clears nothing
    "a sweep of a mark": (
        "1", "2", "0: take,2 run release step,3; 1: take,3 step,3; 0: step,2; 1: run; 0: run; 1: release run",
        """0: look,2,-,free claim,2,OLR,climb sweep,1,-,ok raise,1,L,held zero,2,-,climb unmark,1,L,ok mark,1,L+0,ok;
        1: look,3,-,free claim,3,OLR,climb sweep,1,L,ok; 0: child,2,-,free child,3,OLR,used; 1: raise,1,LR,held;
        0: clear,1,LR,lost; 1: zero,3,-,climb unmark,1,LR,ok mark,1,LR+1,ok child,2,-,free child,3,-,free
        clear,1,-,done; -: end,-,-,0"""),
    # against words of 32 bits, since the mark of station 47 is bit 55, and against marks in the order of their coming
    "the mark of the last station": ("1", "48",
        "47: take,2 run; 4: take,3 run; 47: release step,2; 4: release step,2; 47: step,1; 4: step,1; 47: run; 4: run",
        """47: look,2,-,free claim,2,OLR,climb sweep,1,-,ok raise,1,L,held; 4: look,3,-,free claim,3,OLR,climb
        sweep,1,L,ok raise,1,LR,held; 47: zero,2,-,climb unmark,1,LR,ok; 4: zero,3,-,climb unmark,1,LR,ok;
        47: mark,1,LR+47,ok; 4: mark,1,LR+4+47,ok; 47: child,2,-,free child,3,-,free clear,1,LR+4+47,lost;
        4: child,2,-,free child,3,-,free clear,1,-,done; -: end,-,-,0"""),
    # against ends that are sorted as texts: these are of the nodes from the last one of the largest machine to the root
    "the last node of the largest machine": ("12", "1", "0: take,8192 take,8191 run", LAST_NODE),
    # against a station that retires with what it holds, and a node that is looked at before the phase
    "retire while holding": ("0", "1",
        "0: take,1 retire run retire take,9 release retire release run retire retire release step,1 run take,9",
        """0: refused,-,-,notidle look,1,-,free claim,1,OLR,held refused,-,-,notidle refused,9,-,notidle
        refused,-,-,notidle refused,-,-,notholding zero,1,-,done retire,0,-,retired refused,-,-,notidle
        refused,-,-,notholding refused,-,-,resting refused,9,-,notidle; -: end,-,-,0"""),
    # against numbers that are cut to 8 or 32 bits, or that have a sign
    "stations and nodes past 2^32": ("3", "1",
        """4294967296: take,1 step,1 run; 256: run; 18446744073709551615: retire; 0: take,4294967297 take,257
        take,9223372036854775809 take,18446744073709551615 take,0 take,16; 4294967296: take,4294967297; 0: run
        step,1""",
        """4294967296: refused,1,-,nostation refused,-,-,nostation refused,-,-,nostation; 256: refused,-,-,nostation;
        18446744073709551615: refused,-,-,nostation; 0: refused,4294967297,-,notincube refused,257,-,notincube
        refused,9223372036854775809,-,notincube refused,18446744073709551615,-,notincube refused,0,-,notincube
        refused,16,-,notincube; 4294967296: refused,4294967297,-,nostation; 0: refused,-,-,resting; -: end,-,-,0"""),
    "a hundred steps": (
        "0", "1", "0: take,1 step,100", 
        "0: look,1,-,free claim,1,OLR,held" + " refused,-,-,resting" * 98 + "; -: end,1,OLR,- end,-,-,1",
    ),
    "a million calls": ("3", "1", "0:" + " run" * MOST, "-: end,-,-,0"),
    "refused calls": ("1", "1", "0: step,1 release; 5: take,1; 0: take,4 retire take,1",
        """0: refused,-,-,resting refused,-,-,notholding; 5: refused,1,-,nostation; 0: refused,4,-,notincube
        retire,0,-,retired refused,1,-,notidle; -: end,-,-,0"""),
    "the root is held in the end": ("0", "1", "0: take,1 run step,2",
        "0: look,1,-,free claim,1,OLR,held refused,-,-,resting refused,-,-,resting; -: end,1,OLR,- end,-,-,1"),
    "a run of a station that does not exist": ("0", "48", "48: run", "48: refused,-,-,nostation; -: end,-,-,0"),
    "each call of a station that does not exist": ("3", "2", "2: run step,2 release retire",
        """2: refused,-,-,nostation refused,-,-,nostation refused,-,-,nostation refused,-,-,nostation
        refused,-,-,nostation; -: end,-,-,0"""),
    "a run at rest": ("3", "2", "1: run", "-: end,-,-,0"),
}

# The fault, and the lines after the header, at dimension 3 with one station.
REFUSED = {
    "no byte": ("record 0: Fields", NO_HEADER),
    "a header with another text": ("record 0: Word", NO_HEADER, "station,call,args"),
    "101 steps": ("Number", "0,step,101"),
    "101 steps after a good record": ("record 2: Number", "0,run,-", "0,step,101"),
    "no step": ("Number", "0,step,0"),
    "257 steps": ("Number", "0,step,257"),
    "2^32 + 1 steps": ("Number", "0,step,4294967297"),
    "a dash of steps": ("Number", "0,step,-"),
    "a run with a number": ("Word", "0,run,1"),
    "a take with no node": ("Number", "0,take,-"),
    "no such call": ("Word", "0,wait,-"),
    "a run with nothing": ("Word", "0,run,"),
    "a release with a number": ("Word", "0,release,1"),
    "a retire with a number": ("Word", "0,retire,0"),
    "a call in capital letters": ("Word", "0,RUN,-"),
    "two fields": ("Fields", "0,run"),
    "a station before a call": ("Number", "x,wait,-"),
    "a call before its number": ("Word", "0,wait,x"),
    "station 2^64": ("Number", "18446744073709551616,run,-"),
    "node 2^64 + 1": ("Number", "0,take,18446744073709551617"),
    "a station with a zero too many": ("Number", "00,run,-"),
    "a line end within quotes in a number": ("Number", '"0\n",run,-'),
    "a line of # after the header": ("Number", "#0,run,-"),
    "a call too many": ("record 1000001: TooMany", *["0,run,-"] * MOST, "x"),
    "a station that is no number": ("Number", "a,run,-"),
}


def rows(program):
    for name, (n, stations, calls, out) in REPLAYS.items():
        words = f"replay --dim {n} --stations {stations}"
        given = of_stations(calls, ",-") if isinstance(calls, str) else calls
        yield Row(f"replay: {name}", *answered(program, words, CALLS, given, EVENTS, of_stations(out)))
    yield from refused(program, "replay --stations 1", REFUSED)

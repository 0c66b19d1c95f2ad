"""What the page is tried with: schedules, the cards that it has, files that it refuses, and files that it corrects."""

# Each schedule of examples/: its machine's dimension and stations, and the event of its picture in docs/, or None.
SCHEDULES = {
    "schedules/overtaken-release": (2, 4, 30),
    "schedules/roll-back": (2, 3, 8),
    "schedules/three-marks": (3, 3, 34),
    "schedules/root-taken-again": (1, 3, 15),
    "schedules/lost-claim": (2, 2, 8),
    "schedules/lost-wakeup": (1, 4, 13),
    "schedules/largest-machine": (12, 48, None),
    "schedule": (2, 3, None),
}

# The cards of the page: the example, the event at which it opens, a title and what it shows.
CARDS = (
    ("events", 30, "The jobs of a run", "24 jobs on 16 processors: which ran where, and when."),
    ("place", 6, "Names that take blocks", "Each take gets the first free block; one is refused."),
    ("schedules/overtaken-release", 30, "A release that is overtaken", "Two releases want to clear one node, and one leaves it."),
    ("schedules/roll-back", 8, "A take that is rolled back", "It finds an owner above its node, and undoes its claim."),
    ("schedules/three-marks", 34, "Marks of two stations", "Each may clear the root only if its own mark is the last."),
    ("schedules/root-taken-again", 15, "The root is taken again", "A claim takes the root between a mark and a clear."),
    ("schedules/lost-claim", 8, "A claim that is lost", "Two stations find a node clear, and one claims it first."),
    ("schedules/lost-wakeup", 13, "A wakeup that is lost", "A take is refused although no block is held."),
    ("schedules/largest-machine", 60, "4,096 processors", "Two stations climb from leaves to the root and back."),
)

# Files that are none, and a word of the reason that each is refused for.
BAD_FILES = {
    "": "nothing in it",
    "hello\n": "none of the outputs",
    "lane,kind,op,root,items\n0,scan,add,0,1\n": "file of jobs",
    "station,call,arg\n0,take,1\n": "input of replay",
    "command,name,dim\ntake,a,1\n": "input of place",
    "group,key,count,processors\n": "a report",
    "lane,seq,kind,dim,result,rounds,messages\n": "output of run",
    "record,line,field,text,fault,wanted\n": "output of check",
    **{f"station,event,node,word,note\n{rows}\n": f"Line {line}, {row}: {reason}" for rows, line, row, reason in (
        ("0,look,4,-", 2, "0,look,4,-", "it should have five fields"),
        ("0,look,4,-,climb", 2, "0,look,4,-,climb", "no such event, or it has no such note"),
        ("0,constructor,4,-,ok", 2, "0,constructor,4,-,ok", "no such event, or it has no such note"),
        ("99,look,4,-,free", 2, "99,look,4,-,free", "a station is a number"),
        ("0,look,4,-,free\n48,look,4,-,free", 3, "48,look,4,-,free", "a station is a number"),
        ("0,look,0,-,free", 2, "0,look,0,-,free", "a node is a number"),
        ("0,look,8192,-,free", 2, "0,look,8192,-,free", "a node is a number"),
        ("0,look,4,<b>,free", 2, "0,look,4,<b>,free", "no such word"),
        ("-,end,-,-,0\n0,look,4,-,free", 3, "0,look,4,-,free", "an event after the end rows"),
        ("0,end,4,-,0", 2, "0,end,4,-,0", "no such end row"),
    )},
    **{f"command,name,dim,base,outcome\n{row}\n": f"Line 2, {row}: {reason}" for row, reason in (
        ("take,a,1,1,given", "the base should be a multiple of the region"),
        ("take,A,1,0,given", "a name has"),
        ("take,a,13,0,given", "the dimension should be a number up to"),
        ("take,a,1,0,freed", "no such command"),
    )},
}

# Files that read well and that the program never writes: the row that is named, a word of the reason, and the first
# processor that is shown in red after the last row, or None.
FORGED = {
    "command,name,dim,base,outcome\ntake,a,1,0,given\ntake,b,0,1,given\n": (2, "a and b both hold processor 1", 1),
    "command,name,dim,base,outcome\ntake,a,1,0,given\ntake,a,1,2,given\n": (2, "a holds a block already", None),
    "command,name,dim,base,outcome\ntake,a,1,0,given\nfree,a,1,2,freed\n": (2, "a does not hold this block", None),
    "command,name,dim,base,outcome\ntake,l0s0,1,4,given\ntake,l1s3,1,4,given\n": (2, "job 0 of lane 0 and job 3 of lane 1 both hold processor 4", 4),
    "station,event,node,word,note\n0,look,1,-,free\n1,look,1,-,free\n0,claim,1,OLR,held\n1,claim,1,OLR,held\n-,end,1,OLR,-\n-,end,-,-,1\n": (4, "its note should be lost", 0),
    "station,event,node,word,note\n0,claim,1,OLR,held\n": (1, "station 0 can make no claim", None),
    "station,event,node,word,note\n0,look,2,-,free\n0,claim,3,OLR,climb\n": (2, "the claim of station 0 is due at node 2", None),
    "station,event,node,word,note\n0,look,2,-,free\n0,claim,2,OLR,climb\n0,refused,-,-,resting\n": (3, "not refused as resting", None),
}

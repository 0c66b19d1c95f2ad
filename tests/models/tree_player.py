"""Plays schedules on the model of the tree, and writes the rows that `replay` writes of them."""
import random

from tests.models.tree_calls import LEFT, OCC, RIGHT, Rules, mark_of, release, retire, take


def text_of(node, word):
    """Returns a word as `replay` shows it, which shows nothing of word 0."""
    letters = "".join(letter for letter, bit in zip("OLR", (OCC, LEFT, RIGHT)) if word & bit)
    return "+".join([letters or "-", *(str(s) for s in range(48) if word & mark_of(s))]) if node else "-"


class Player:
    """Plays schedules on the model, and keeps the rows that `replay` writes of them, each without its last field."""

    def __init__(self, n, rules=Rules()):
        self.rules, self.words, self.calls, self.holds, self.rows = rules, [0] * (2 << n), {}, {}, []

    def begin(self, s, name, node):
        if name == "retire":
            call = retire(s)
        else:
            call = take(self.rules, s, node) if name == "take" else release(self.rules, s, self.holds[s])
        self.calls[s] = call, next(call), node

    def step(self, s):
        call, step, node = self.calls.pop(s)
        found, self.words[step.node] = self.words[step.node], step.written(self.words[step.node])
        self.rows.append(f"{s},{step.name},{step.node},{text_of(step.node, self.words[step.node])}")
        try:
            self.calls[s] = call, call.send(found), node
        except StopIteration as end:
            self.holds[s] = node if end.value == "held" else 0

    def play(self, *lines):
        for line in lines:
            s, name, argument = line.split(",")
            if name in ("take", "release", "retire"):
                self.begin(int(s), name, int(argument) if name == "take" else 0)
            most = {"step": argument, "run": "999", "retire": "1"}.get(name, "0")
            for _ in range(int(most)):
                if int(s) in self.calls:
                    self.step(int(s))

    def play_at_random(self, stations, seed):
        """Makes 300 random moves, after which all stations come to rest and retire. Returns the lines."""
        dice, lines = random.Random(seed), []

        def play(line):
            lines.append(line)
            self.play(line)

        for _ in range(300):
            s = dice.randrange(stations)
            node = dice.randrange(1, len(self.words))
            play(f"{s},step,1" if s in self.calls else f"{s},release,-" if self.holds.get(s) else f"{s},take,{node}")
        for s in range(stations):
            if s in self.calls:
                play(f"{s},run,-")
            if self.holds.get(s):
                play(f"{s},release,-")
                play(f"{s},run,-")
            play(f"{s},retire,-")
        return lines

    def ended(self):
        """Returns the rows, and those that `replay` adds for the words."""
        left = [f"-,end,{v},{text_of(v, word)}" for v, word in enumerate(self.words) if v and word]
        return [*self.rows, *left, "-,end,-,-"]

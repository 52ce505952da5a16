"""Random cases, in the language of docs/CASES.md: one a line, which states that it comes out alike in each way."""

# What stands more than once here comes more often.
TEXTS = ["", "a", "b", "cd", "efg", "hij", "klmn", "opqr", " ", "stuvwx", "yz01234567", "é"]
PAYLOADS = ["a\nb", "\n", "cd\n", "\nef", "ghi\r\n\r\njklm", "n\n\nopqrstuvw"]
LEAVES = ["nil"] * 2 + ["ws"] * 6 + ["hl"] * 3 + ["wl"] * 5 + ["exp"] * 3 + ["fail"]
SINGLES = ["sfx"] * 3 + ["root"] + ["align"] * 2 + ["flat"] + ["grp"] * 5
PAIRS = ["app"] * 10 + ["bof"] + ["uni"] * 3 + ["puni"] * 2
OFFSETS = [2, 2, 4, 1, 3, -1, -2, -40]
TESTS = ["oncol atmost", "oncol atleast", "onnest atmost", "onnest atleast"]
# How many nodes, and what is made: each kind of node, by how often it comes.
MOST_NODES = 48
KINDS = ["leaf"] * 6 + ["text"] * 8 + ["wide", "payload"] + ["soft line"] * 2 + ["single"] * 7 + ["nest"] * 2
KINDS += ["choice"] * 2 + ["shared"] + ["pair"] * 10


class Dice:
    """Dice, whose next rolls follow from their state."""

    def __init__(self, seed):
        self.state = seed

    def roll(self, sides):
        """A roll of a die with so many sides, the first of which is 0. It is splitmix64."""
        self.state = (self.state + 0x9E3779B97F4A7C15) % 2**64
        mixed = self.state
        for shift, factor in ((30, 0xBF58476D1CE4E5B9), (27, 0x94D049BB133111EB)):
            mixed = (mixed ^ (mixed >> shift)) * factor % 2**64
        return (mixed ^ (mixed >> 31)) % sides

    def one_of(self, values):
        return values[self.roll(len(values))]


def text(dice, texts=TEXTS):
    return dice.one_of(texts).encode().hex() or "-"


def operand(dice, made):
    """Takes the document that was made last, or makes a text where there is none."""
    return made.pop() if made else f"t {text(dice)}"


def test(dice):
    """What a choice by column or nesting asks."""
    return "oncol nesting" if dice.roll(5) == 0 else f"{dice.one_of(TESTS)} {dice.roll(20)}"


def joined(dice, first, second):
    """The documents in one node, at random inside another."""
    both = f"{dice.one_of(PAIRS)} {first} {second}"
    return f"{dice.one_of(SINGLES)} {both}" if dice.roll(3) == 0 else both


def shared(dice, inner):
    """A document in two places, the first of which is at random inside another node."""
    return joined(dice, f"{dice.one_of(SINGLES)} again" if dice.roll(2) else "again", inner)


# How each kind of node is made, of the documents that were made before.
NODES = {
    "leaf": lambda dice, made: dice.one_of(LEAVES),
    "text": lambda dice, made: f"t {text(dice)}",
    "wide": lambda dice, made: f"w {dice.roll(9)} {text(dice)}",
    "payload": lambda dice, made: f"m {text(dice, PAYLOADS)}",
    "soft line": lambda dice, made: f"bof hl t {text(dice)}",
    "single": lambda dice, made: f"{dice.one_of(SINGLES)} {operand(dice, made)}",
    "nest": lambda dice, made: f"nest {dice.one_of(OFFSETS)} {operand(dice, made)}",
    "choice": lambda dice, made: f"{test(dice)} {operand(dice, made)} {operand(dice, made)}",
    "shared": lambda dice, made: shared(dice, operand(dice, made)),
    "pair": lambda dice, made: joined(dice, operand(dice, made), operand(dice, made)),
}


def document(dice):
    """A document of some random nodes, and of those that join what they leave over."""
    made = []
    for _ in range(1 + dice.roll(MOST_NODES)):
        made.append(NODES[dice.one_of(KINDS)](dice, made))
    whole = made.pop()
    for other in made:
        whole = joined(dice, whole, other)
    return whole


def random_cases(seed, count):
    """So many cases of a seed, as the text that has their lines."""
    dice, lines = Dice(seed), []
    for _ in range(count):
        width = dice.roll(1 + dice.roll(41))
        options = f"{dice.one_of(['lf', 'crlf'])} {dice.one_of(['eager', 'deferred'])}"
        lines.append(f"{width} {options} {document(dice)} =>\n")
    return "".join(lines)

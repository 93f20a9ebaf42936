"""Inputs for the model of an xterm's cells and for real xterm. They avoid what docs/XTERM.md does otherwise on purpose.

With `is_own` they also have single shifts and changes of the size, which real xterm does otherwise, and DECAWM.
"""
import random

SIZES = [(4, 10), (3, 6), (6, 12), (5, 9)]
NARROW = ["a", "bc", "def", "x" * 5, "é", "Ж", "─", " ", "  z"]
WIDE = ["日", "本語", "x漢", "😀", "字y"]
MARKED = ["e\u0301", "a\u0308\u0302", "o\u0301\u0302\u0303", "❤\ufe0f"]
SGR = ["0", "", "1", "2", "3", "4", "5", "7", "9", "21", "22", "23", "24", "25", "27", "29", "31", "37", "42", "90", "107", "39", "49", "38;5;100",
       "48;5;200", "38;2;1;2;3", "48;2;9;8;7", "1;31;44", "38;5;300", "48;7;3", "38", "48;5"]
MODES = ["4h", "4l", "?47h", "?47l", "?1047h", "?1047l", "?1048h", "?1048l", "?1049h", "?1049l", "?25l", "?12h", "?1000h", "?1006h", "?1004h", "?2004h"]
OWN_MODES = ["?7h", "?7l"]
SINGLE_SHIFTS = ["\033*0\033N", "\033+0\033O", "\033N", "\033O"]


class CellChance(random.Random):
    def __init__(self, seed, is_own):
        super().__init__(seed)
        self.is_own = is_own
        self.size = self.choice(SIZES)
        self.has_sides = self.random() < 0.25
        self.texts = [NARROW, NARROW, MARKED] if self.has_sides or self.random() < 0.4 else [NARROW, WIDE, WIDE, MARKED]

    def number(self):
        return self.choice([1, 1, 2, 3, 4, self.size[1] - 1, self.size[1], 99])

    def place(self):
        return f"\033[{self.randint(1, self.size[0])};{self.randint(1, self.size[1])}H"

    def text(self):
        return self.choice(self.choice(self.texts))

    def pen(self):
        return "\033[" + self.choice(SGR) + "m"

    def erase(self):
        return "\033[" + self.choice(["K", "1K", "2K", "J", "1J", "2J", f"{self.number()}X"])

    def edit(self):
        return f"\033[{self.number()}{self.choice('@PLM')}"

    def scroll(self):
        return self.choice([f"\033[{self.number()}S", f"\033[{self.number()}T", "\n", "\033D", "\033E", "\033M"])

    def margins(self):
        if self.has_sides and self.random() < 0.7:
            left = self.randint(1, self.size[1] - 2)
            return f"\033[?69h\033[{left};{self.randint(left + 2, self.size[1])}s"
        top, bottom = sorted(self.sample(range(1, self.size[0] + 1), 2))
        return f"\033[{top};{bottom}r"

    def other(self):
        protection = self.choice(['\033[1"q', '\033[0"q'])
        return self.choice([self.place() + "\r\n", "\0337", "\0338", "\t", protection, "\r" + "x\033[b", "\033(0", "\033(B", "\b", "\033[5 q", "\033]2;t\u00e9\a"])

    def shift(self):
        """Returns a single shift and a character, half of the time one that has no room."""
        shift = self.choice(SINGLE_SHIFTS)
        at_end = f"\033[?7l\033[{self.randint(1, self.size[0])};{self.size[1]}H{shift}日"
        return self.choice([shift + self.text(), at_end + self.place()])

    def input(self):
        parts = [self.text, self.text, self.text, self.pen, self.pen, self.place, self.place, self.erase, self.edit, self.scroll, self.margins, self.other]
        parts += [self.shift] * self.is_own
        sent = [self.choice(parts)() if self.random() < 0.93 else "\033[" + self.choice(MODES + OWN_MODES * self.is_own) for _ in range(self.randint(3, 30))]
        return "".join(sent).encode()

    def steps(self):
        steps = [self.input()]
        while self.is_own and self.random() < 0.3:
            self.size = self.choice(SIZES)
            steps += [self.size, self.input()]
        return steps


def generated(seed, is_own=False):
    """Returns the name, the size and the steps of an input."""
    chance = CellChance(seed, is_own)
    return f"seed {seed}", chance.size, chance.steps()

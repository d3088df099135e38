"""The words of a generator: those of PCG XSH RR 64/32, by its published definition.

It is O'Neill, "PCG: a family of simple fast space-efficient statistically good algorithms for random number generation".
"""

MULTIPLIER = 6364136223846793005
STATES, WORDS = 2**64, 2**32


class Generator:
    """A stream of words that begins at a seed."""

    def __init__(self, seed, stream=0):
        self.increment = (2 * stream + 1) % STATES
        self.state = 0
        self.step()
        self.state = (self.state + seed) % STATES
        self.step()

    def step(self):
        self.state = (self.state * MULTIPLIER + self.increment) % STATES

    def word(self):
        """The next word. It is that of the state before the step."""
        state = self.state
        self.step()
        shifted = ((state >> 18) ^ state) // 2**27 % WORDS
        turns = state // 2**59
        return (shifted >> turns) + (shifted << (32 - turns)) % WORDS


def differences(lines):
    """The number of words in some lines, and a line for each that the generator does not give.

    `seed N stream M` begins the words of a stream, which follow in order.
    """
    count, told, words = 0, [], None
    for line in lines:
        cells = line.split("#")[0].split()
        if cells[:1] == ["seed"]:
            words = Generator(int(cells[1]), int(cells[3]))
            continue
        for cell in cells:
            word, count = words.word(), count + 1
            if word != int(cell):
                told.append(f"word {count}: {word} for {cell}")
    return count, told

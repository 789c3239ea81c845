#!/usr/bin/env python3
"""Makes the worked draws of `run_view::random_stream`.

Usage: tools/models/random_rows.py > crates/run_view/specs/RandomStream/Rows.antt

It reckons the words of PCG XSH RR 64/32 in Python's own whole numbers, by the algorithm of M. E. O'Neill's paper and by how the Rust
crates rand_core and rand_pcg make a generator of a number, and first compares itself with values that these publish. The gate proves the
table of the definitions, and needs this script no more.
"""

MULTIPLIER = 6364136223846793005
SEEDING_INCREMENT = 0xA17654E46FBE17F3
DRAWS = 20
LINE = 140

# the seed, the first and the last number of the range
ROWS = [
    (0, 0, 1),
    (1, -100, 100),
    (2**64 - 1, -(2**31), 2**31 - 1),
]


def step(state, increment):
    return (state * MULTIPLIER + increment) & (2**64 - 1)


def word(state):
    mixed = ((state ^ (state >> 18)) >> 27) & 0xFFFFFFFF
    turn = state >> 59
    return ((mixed >> turn) | (mixed << (32 - turn))) & 0xFFFFFFFF


class Generator:
    def __init__(self, state, stream):
        self.increment = (stream & (2**64 - 1)) | 1
        self.state = step(state + self.increment, self.increment)

    @classmethod
    def of_seed(cls, seed):
        state, words = seed, []
        for _ in range(4):
            state = step(state, SEEDING_INCREMENT)
            words.append(word(state))
        return cls(words[0] | words[1] << 32, words[2] | words[3] << 32)

    def next_word(self):
        result = word(self.state)
        self.state = step(self.state, self.increment)
        return result

    def randint(self, first, last):
        return first + self.next_word() * (last - first + 1) // 2**32


def compare():
    """With the words that PCG's C code prints for state 42 and stream 54, and the first two of seed 0 in rand_pcg's tests."""
    reference = Generator(42, 54 << 1)
    assert [reference.next_word() for _ in range(3)] == [0xA15C02B7, 0x7B47F409, 0xBA1D3330]
    seeded = Generator.of_seed(0)
    assert seeded.next_word() | seeded.next_word() << 32 == 18195738587432868099


def shown(number):
    return f"pos {number}" if number >= 0 else f"minus {-number}"


def lines(pieces):
    """The pieces in lines that aren't too long."""
    line = "   "
    for piece in pieces:
        if len(line) + 1 + len(piece) > LINE:
            yield line
            line = "   "
        line += " " + piece
    yield line


def row(seed, first, last):
    generator = Generator.of_seed(seed)
    numbers = [generator.randint(first, last) for _ in range(DRAWS)]
    head = f"(draws {DRAWS} ({shown(first)}) {last - first + 1} (seeded {seed})"
    pieces = [f"{shown(number)} ∷" for number in numbers] + ["[])"]
    pieces[0] = "≡ " + pieces[0]
    return head + "\n" + "\n".join(lines(pieces))


HEAD = """\
-- A means of proof: worked draws, which tools/random_rows.py reckoned, by which the definition of the generator is tried.
use Rattle.std.specs.Prelude.{◌≡◌, ℕ, zero, suc, List, [], ◌∷◌, ℤ, pos, neg_ℤ}
use Rattle.run_view.specs.RandomStream.Generator.{Generator, next, word, seeded}
use Rattle.run_view.specs.RandomStream.Draw.{drawn}

-- the next draws, all of one range
abbrev pub draws : ℕ → ℤ → ℕ → Generator → List ℤ
draws zero low span g = []
draws (suc k) low span g = drawn low span (word g.state) ∷ draws k low span (next g)

abbrev pub minus : ℕ → ℤ
minus n = neg_ℤ (pos n)
"""


def main():
    compare()
    print(HEAD)
    ranges = [f"of seed {seed} from {first} to {last}" for seed, first, last in ROWS]
    print("-- " + ",\n-- ".join(ranges))
    print("abbrev pub Worked_rows : Type 0")
    print("Worked_rows =\n    " + "\n    × ".join(row(*entry) for entry in ROWS))


if __name__ == "__main__":
    main()

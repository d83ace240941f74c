"""The generated tables of up_field: multiples of Ed25519's base point, and the sums that prove
them.

    tools/run ed25519_tables          compares what stands in the repository with what this program
                                      makes
    tools/run ed25519_tables write    writes the files

The files are, in crates/up_field: src/comb_table.rt, rows of sums and differences of powers of
two that are 51 bits apart, and proofs/CombSteps.antt; src/odd_table.rt, odd multiples, and
proofs/OddSteps.antt; src/far_table.rt and proofs/FarSteps.antt, those of 2^129 times it. A step
of a proof names a point, the number whose multiple it is, and which two points before it add up
to it. The prover tests each step and each entry (proofs/Chains.antt): this program is trusted in
nothing. All numbers are computed here from RFC 8032, section 5.1.
"""
from pathlib import Path

from uptane_tools import TOP, arguments

CRATE = TOP / 'crates' / 'up_field'
P = 2**255 - 19
D = -121665 * pow(121666, -1, P) % P
BASE_Y = 4 * pow(5, -1, P) % P
ROWS = 17
TEETH = 5
GAP = 51

Point = tuple[int, int]


def base_point() -> Point:
    square = (BASE_Y * BASE_Y - 1) * pow(D * BASE_Y * BASE_Y + 1, -1, P) % P
    x = pow(square, (P + 3) // 8, P)
    if x * x % P != square:
        x = x * pow(2, (P - 1) // 4, P) % P
    return (x if x % 2 == 0 else P - x, BASE_Y)


def add(a: Point, b: Point) -> Point:
    (x1, y1), (x2, y2) = a, b
    t = D * x1 * x2 * y1 * y2 % P
    return ((x1 * y2 + x2 * y1) * pow(1 + t, -1, P) % P,
            (y1 * y2 + x1 * x2) * pow(1 - t, -1, P) % P)


class Chain:
    """Steps of a chain: each is the sum of two known multiples, or the difference."""

    def __init__(self) -> None:
        self.known: list[tuple[int, Point]] = [(1, base_point())]
        self.steps: list[str] = []
        self.shown: list[tuple[int, Point]] = []

    def _step(self, kind: str, a: int, b: int, n: int, point: Point) -> int:
        back = len(self.known) - 1
        self.steps.append(f'{kind} {back - a} {back - b} {n} {point[0]} {point[1]}')
        self.known.append((n, point))
        if kind != 'sum':
            self.shown.append((n, point))
        return len(self.known) - 1

    def sum(self, a: int, b: int, kind: str = 'sum') -> int:
        """The sum of two that are known."""
        (m, p), (n, q) = self.known[a], self.known[b]
        return self._step(kind, a, b, m + n, add(p, q))

    def less(self, a: int, b: int) -> int:
        """The known b without the known a."""
        (m, (x, y)), (n, q) = self.known[a], self.known[b]
        return self._step('less', a, b, n - m, add(q, (P - x, y)))


def comb() -> Chain:
    """Seventeen rows of sixteen entries."""
    chain = Chain()
    teeth = [0]
    while len(teeth) < TEETH:
        at = teeth[-1]
        for _ in range(GAP):
            at = chain.sum(at, at)
        teeth.append(at)
    for row in range(ROWS):
        twice = [chain.sum(it, it) for it in teeth[:-1]]
        low = teeth[0]
        for it in teeth[1:-1]:
            low = chain.sum(low, it)
        entries = [chain.less(low, teeth[-1])]
        for k in range(1, 2**(TEETH - 1)):
            high = k.bit_length() - 1
            entries.append(chain.sum(entries[k - 2**high], twice[high], 'shown'))
        if row + 1 < ROWS:
            ahead = []
            for it in [*twice, chain.sum(teeth[-1], teeth[-1])]:
                it = chain.sum(it, it)
                ahead.append(chain.sum(it, it))
            teeth = ahead
    return chain


def odd(count: int, doubles: int = 0) -> Chain:
    """The first odd multiples, of the base point or of that so often doubled."""
    chain = Chain()
    first = 0
    for _ in range(doubles):
        first = chain.sum(first, first)
    two = chain.sum(first, first)
    # (the point itself is three times it without twice it)
    at = chain.less(two, chain.sum(first, two))
    for _ in range(count - 1):
        at = chain.sum(at, two, 'shown')
    return chain


def words(n: int) -> list[int]:
    return [n >> 64 * place & 2**64 - 1 for place in range(4)]


def entry(point: Point) -> tuple[int, int, int]:
    x, y = point
    return ((y + x) % P, (y - x) % P, 2 * D * x * y % P)


def source(chain: Chain, title: str, uses: str, text: str, name: str) -> str:
    """The Rattle file of a table."""
    lines = [
        f'//! {title} This file is made by `tools/run ed25519_tables`, with the proof of its '
        f'numbers.', uses, text, '{']
    lines.append(f'    static {name}: [Affine; {len(chain.shown)}] = [')
    for _, point in chain.shown:
        lines.append('        Affine {')
        for field, number in zip(('plus', 'minus', 't'), entry(point)):
            lines.append(f'            {field}: Words {{')
            lines += [
                f'                {place}: {word},' for place, word in zip('abcd', words(number))]
            lines.append('            },')
        lines.append('        },')
    return '\n'.join([*lines, '    ];', f'    &{name}', '}']) + '\n'


COMB_USES = '''ghost use Rattle.std.specs.Prelude.{◌≡◌};
ghost use Rattle.up_field.specs.Comb.{IsComb};

use crate::affine::Affine;
use crate::words::Words;
'''
COMB_TEXT = '''/// Seventeen rows of sixteen entries: sums and differences of the base point's \
multiples by 1, 2^51, 2^102, 2^153 and 2^204, in
/// each row eight times those of the row before. The place of an entry has a bit for each but the \
highest: it is added where it is 1.
pub(crate) fn comb_table() -> &'static [Affine; 272]
    ensures { IsComb result.now }'''
ODD_USES = '''ghost use Rattle.std.specs.Prelude.{◌≡◌};
ghost use Rattle.up_field.specs.Tables.{AreOddMultiples};

use crate::affine::Affine;
use crate::words::Words;
'''
ODD_TEXT = '''/// The first 64 odd multiples of the base point.
pub(crate) fn odd_table() -> &'static [Affine; 64]
    ensures { AreOddMultiples 1 result.now }'''
FAR_TEXT = '''/// The first 64 odd multiples of 2^129 times the base point.
pub(crate) fn far_table() -> &'static [Affine; 64]
    ensures { AreOddMultiples (2 ^ 129) result.now }'''
CHAIN = '''-- %s
-- This file is made by `tools/run ed25519_tables`.
use Rattle.std.proofs.Common.{List, [], ◌∷◌}
use Rattle.up_field.proofs.Chains.{Step, sum, shown, less}

unfoldable pub steps : List Step
steps =
'''


def proof(chain: Chain, title: str) -> str:
    """The steps, for the prover."""
    return CHAIN % title + ''.join(f'    {"∷ " if k else ""}{step}\n'
                                   for k, step in enumerate(chain.steps)) + '    ∷ []\n'


def files() -> dict[Path, str]:
    """The generated files and what stands in them."""
    rows, multiples, far = comb(), odd(64), odd(64, 129)
    return {
        CRATE / 'src/comb_table.rt': source(rows, "The base point's comb.", COMB_USES, COMB_TEXT,
                                            'COMB'), CRATE / 'proofs/CombSteps.antt': proof(
                                                rows,
                                                "The points of the base point's comb, by sums."),
        CRATE / 'src/odd_table.rt': source(
            multiples, 'Odd multiples of the base point.', ODD_USES, ODD_TEXT,
            'ODD'), CRATE / 'proofs/OddSteps.antt': proof(
                multiples,
                'Odd multiples of the base point, by sums.'), CRATE / 'src/far_table.rt': source(
                    far, 'Odd multiples of 2^129 times the base point.',
                    ODD_USES.replace('{◌≡◌}', '{◌≡◌, ◌^◌}'), FAR_TEXT,
                    'FAR'), CRATE / 'proofs/FarSteps.antt': proof(
                        far, 'Odd multiples of 2^129 times the base point, by sums.')}


def main(words: arguments.Words = None) -> int:
    """Compares the files, or writes them."""
    write = arguments.given(__doc__, words, order=["tell", "write"]).order == "write"
    wrong = 0
    for path, text in files().items():
        if write:
            path.write_text(text, encoding='utf-8')
        elif path.read_text(encoding='utf-8') != text:
            print(f"{path.relative_to(TOP)} isn't what this program makes")
            wrong += 1
    print(f'{6 - wrong} passed, {wrong} failed')
    return 1 if wrong else 0

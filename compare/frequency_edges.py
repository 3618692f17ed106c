"""Writes what the program frequency_edges must write, from the rules and from source document 000, without the bench's code.

    python3 compare/frequency_edges.py > crates/frequency_edges/stdout

The frequencies of each list are written out by hand beside its codes, and the rule is asked to give the same.
"""


def frequency(code):
    return f"khz {87500 + 100 * code}" if 1 <= code <= 204 else "answer 11"


CODES = {87500 + 100 * code: code for code in range(1, 205)}


def listed(codes):
    """Expected and held: since the last count code, the first different frequencies, as many as it says."""
    counts = [place for place, code in enumerate(codes) if 224 <= code <= 249]
    if not counts:
        return 0, []
    expected = codes[counts[-1]] - 224
    held = []
    for code in codes[counts[-1] + 1 :]:
        if 1 <= code <= 204 and 87500 + 100 * code not in held:
            held.append(87500 + 100 * code)
    return expected, held[:expected]


LISTS = [
    ("method A, example A", [229, 1, 2, 3, 4, 5], [87600, 87700, 87800, 87900, 88000]),
    ("method A, example B", [228, 1, 2, 3, 4, 205], [87600, 87700, 87800, 87900]),
    ("method A, example C", [228, 1, 2, 3, 250, 4], [87600, 87700, 87800, 87900]),
    (
        "method B, example A",
        [235, 18, 18, 142, 14, 18, 18, 150, 120, 18, 18, 16],
        [89300, 101700, 88900, 102500, 99500, 89100],
    ),
    ("method B, example B", [233, 120, 18, 120, 134, 120, 120, 172, 120, 16], [99500, 89300, 100900, 104700, 89100]),
    ("no word", [], []),
    ("no count code", [1, 2, 205, 3], []),
    ("encoder's word", [224, 205], []),
    ("none expected", [224, 1, 2, 3], []),
    ("emptied by 224", [226, 1, 2, 224, 3, 4], []),
    ("count again", [226, 1, 2, 227, 3, 4], [87800, 87900]),
    ("codes of no change", [226, 1, 0, 205, 223, 250, 255, 255, 0, 2], [87600, 87700]),
    ("duplicate, then new", [226, 1, 1, 1, 2, 205], [87600, 87700]),
    ("one more than expected", [225, 1, 2, 3], [87600]),
    ("25 and more", [249] + list(range(1, 28)), [87500 + 100 * code for code in range(1, 26)]),
]

for code in (0, 1, 18, 204, 205, 224, 250, 255):
    print("code", code, frequency(code))
for khz in (0, 87500, 87599, 87600, 87601, 89350, 107900, 107901, 108000, 4294967295):
    print("khz", khz, f"code {CODES[khz]}" if khz in CODES else "answer 11")
for label, codes, by_hand in LISTS:
    expected, held = listed(codes)
    assert held == by_hand, label
    print(f"{label}: held {len(held)} of {expected}", *held, "then 0")

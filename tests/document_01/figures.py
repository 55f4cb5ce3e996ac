"""How many words the image of a text has, and how many steps its run takes on an input block: figures of the compiler, taken from a run."""
from texts import RUNS

MEASURED = [(67, 130), (91, 168), (91, 168), (91, 176), (21, 11), (23, 13), (33, 16), (72, 56), (40, 30), (38, 20), (60, 60), (76, 72), (51, 1016), (51, 582)]
assert len(MEASURED) == len(RUNS)
FIGURES = {(text, tuple(block)): figures for (text, block, *_), figures in zip(RUNS, MEASURED)}
# so many divisions by an element, and so many sums, in `run_cases.long_text` make an image as long as one may be
LONG = 11911, 10

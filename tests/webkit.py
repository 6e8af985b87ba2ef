"""The page in WebKit, from a disk: it has no 64-bit memory, and a worker reads no file there."""

from functools import partial
from pathlib import Path
from typing import Iterator

import browser
from engine import Test
from incidents import problems_of_one
from inputs import problems_of_inputs
from paged import problems_of_captures, problems_of_draft, problems_of_page, problems_of_wires
from turns import problems_of_faults, problems_of_turns


def tests_of(page: Path) -> Iterator[Test]:
    for name in browser.WEBKIT:
        for what, problems in [
            ("what is shown", problems_of_page),
            ("32-bit memory", problems_of_captures),
            ("a draft", problems_of_draft),
            ("four wires", problems_of_wires),
            ("inputs", problems_of_inputs),
            ("one incident", problems_of_one),
            ("one file after another", problems_of_turns),
            ("a file that cannot be read", problems_of_faults),
        ]:
            yield Test(f"{name}: {what}", partial(problems, page, name))

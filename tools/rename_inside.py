#!/usr/bin/env python3
"""Brings to snake case what tools/rename.py does not see: words declared inside a `module` or a `where`, and bound variables.

usage: tools/rename_inside.py    at the top; rewrites specs/ and proofs/ of the crates below, once
"""

import glob
import re

WORDS = {
    "stateAfter": "state_after",
    "answersTo": "answers_to",
    "answerAt": "answer_at",
    "heardOn": "heard_on",
    "isTimer-of": "is_timer_of",
    "nonEmpty": "non_empty",
    "codedAs": "coded_as",
    "inNumber": "in_number",
    "afterCalls": "after_calls",
    "bytesRead": "bytes_read",
    "roomA": "room_a",
    "roomB": "room_b",
    "beforeA": "before_a",
    "beforeB": "before_b",
    "afterA": "after_a",
    "afterB": "after_b",
    "channelB": "channel_b",
    "inDemands": "in_demands",
    "inClocks": "in_clocks",
    "inFrontClocks": "in_front_clocks",
    "fromBits": "from_bits",
    # an input, and no lemma
    "once_broken_lem": "broken_once",
}
CRATES = "poll demands_calls capture_laws demands demands_met vcd_text vcd_lines vcd_subset vcd_capture duart capture sampler_laws byte_bits chip_laws lister_laws".split()
LETTER = r"[\w'′-]"

for crate in CRATES:
    for part in ("specs", "proofs"):
        for path in sorted(glob.glob(f"crates/{crate}/{part}/**/*.antt", recursive=True)):
            text = open(path, encoding="utf-8").read()
            new = text
            for old, word in WORDS.items():
                new = re.sub(rf"(?<!{LETTER}){re.escape(old)}(?!{LETTER})", word, new)
            if new != text:
                open(path, "w", encoding="utf-8").write(new)
                print(path)

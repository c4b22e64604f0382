"""Counts, of src/, the places of docs/DESIGN-PASS.md: `python3 tools/forms.py [COMMIT]` lists what each point's patterns find at a
commit, or in the working tree, and counts them. For a family of constants or parameters a file is one place; else each row is one. A
place is kept where a comment that begins with `Kept:` stands on its line, in the comments above it, or, of a family, above one of its
rows. A row is a place to look at: what became of it stands in the page."""
import collections
import re
import subprocess
import sys

COMMIT = sys.argv[1] if len(sys.argv) > 1 else None

# a point; what it looks for; whether a file is one place; the pattern, of one line
LINES = [
    ("1", "a number for a kind", True,
     r"\b(place|phase|parity|mode|kind|letter|words|name|effect): (u8|u64)\b"
     r"|^(pub )?const (LINE_START|HASH|TIME|ZERO|LEVEL|CODE|OUTSIDE|WITH|NONE|LOCAL|REMOTE|HUNTING|STARTING|ASSEMBLING|AFTER_LOW_STOP"
     r"|IN_BREAK|IDLE|SENDING|AFTER_BREAK|(COUNTER|TIMER)_ON_\w+|RESET|READ|WRITE|ACK|PINS|TICK): u"
     r"|fn (mode_of|channel_mode|effect_bits)\(.*-> u8"),
    ("1", "a number for a refusal", True,
     r"\b(pub )?number: u8\b(?!\) -> bool)|fn \w*refusal\w*\(.*-> u8|\brefuse\(([a-z_]+, )?\d+\)|\bnumber: [1-9]\b|\brow\(\w+, \d"
     r"|^const (ACCEPTED|NOT_MODELLED|SPACE_SHORT)\b|answer\.number = [1-9]|return [1-9];$"),
    ("1", "a flag with a value beside it", False, r"^    (pub )?(some|here|more|go|fresh): bool|^    pub inside: bool,$|^    pub full: bool,$"),
    ("1", "a value that stands for none", False,
     r"^(pub )?const (MUCH|NO_NUMBER|LONG): |^// The code of the wire of this name, 0|: 0 where there is none, or|; 0 where (the nine|both|nothing)"
     r"|^// Rounded to the nearest; 0 where|: 0 where none is read\.$"),
    ("2", "the same for another channel, program or register", False,
     r"fn (hand_[ab]|take_bytes|take_chunk|take_all|print_error|setting_of|print_(low|high)_(read|write))\(|^fn turn\(.*input"),
    ("3", "a loop by hand", False, r"^ *while "),
    ("4", "arithmetic that the library has", False, r"std::num::|u32::count_ones"),
    ("4", "printing by hand", False, r"fn (print_number|print_byte|print_thousandths|print_tenths|print_level|put_decimal)\("),
    ("5", "a place in a text beside it", False, r"requires \{ \(?at ≤ length text"),
    ("5", "a place in lent space beside it", False, r"requires \{ \(?\(?(wave\.)?at \+ "),
    ("5", "a value with a clause on it in each of its routines", False, r"^pub struct Page"),
    ("5", "parameters that travel together", False, r"requires \{ Lent |fn (show_txd|exact_rate)\(|fn hear_until\(.*period|^(pub )?fn (write_seen|hear_wire|hear_said)\($"),
    ("6", "what is filled, as a length beside the space", False,
     r"^(pub )?fn \w+\(.*(space|log|text|events): &mut \[u8(; 32)?\]\) -> usize|^\) -> usize|^    pub length(_[ab])?: usize"),
    ("6", "a table of numbers for tests; numbered places for a buffer", False, r"\[0u8; 256\]|^    pub count: u8"),
    ("7", "a switch on which step to run", False,
     r"\bwatch: bool\) -> (bool|Spent)|fn (has_first|first_event|last_event|sample)\(|fn is_over\(wish"),
]


# the same of functions by their names, where the body has none of the library's words
LIBRARY = r"u8::from|is_ascii|matches!|starts_with|\.min\(|saturating_|wrapping_|checked_|abs_diff|pass\("
FUNCTIONS = [
    ("4", "a bool as a number", "weight_of|marks_byte|level_text|level_byte|level_digit|weight|bit_of"),
    ("4", "arithmetic that the library has", "least|pulses_left|count_down|line_after|words_after|difference|pass|left_after"),
    ("4", "a test of bytes that the library has", "is_digit|digit_value|is_visible|is_blank|starts_at"),
    ("4", "one record made of another", "event_of|record_of|seen_of|seen_in|polled_seen|ran_seen|capture_seen|one_pulse|look_at|wish_of"),
]


def sources():
    """(path, its lines)"""
    words = ["git", "ls-tree", "-r", "--name-only", COMMIT] if COMMIT else ["git", "ls-files", "-co", "--exclude-standard"]
    for path in sorted(subprocess.check_output(words, text=True).split("\n")):
        if re.fullmatch(r"crates/\w+/src/[\w/]+\.rt", path):
            if COMMIT:
                yield path, subprocess.check_output(["git", "show", f"{COMMIT}:{path}"], text=True).split("\n")
            else:
                try:
                    with open(path, encoding="utf-8") as file:
                        yield path, file.read().split("\n")
                except FileNotFoundError:
                    pass


def items(lines, head):
    """(index of an item's first line, its lines to the closing brace)"""
    for i, line in enumerate(lines):
        if re.match(head, line):
            j = i
            while j < len(lines) and lines[j] != "}" and not lines[i].endswith(";"):
                j += 1
            yield i, lines[i : j + 1]


def kept(lines, i):
    """whether the place, or a comment of the item that it stands in, above it, says why it is kept; of a comment, the one below it"""
    if lines[i].lstrip().startswith("//") and any("// Kept:" in line for line in lines[i : i + 3]):
        return True
    j = i
    while j >= 0 and i - j < 40:
        if "// Kept:" in lines[j]:
            return True
        if j < i and (lines[j] == "}" or lines[j] == "};"):
            return False
        j -= 1
    return False


def shape(body):
    """how many words an item has, and its text without its own name, numbers and types of numbers"""
    flat = " ".join(b.split("//")[0].strip() for b in body if not re.match(r"\s*(//|ensures|requires|#)", b))
    out = ["0" if re.match(r"\d", word) else word for word in re.findall(r"\w+|[^\w\s]", flat)]
    text = re.sub(r"^(fn|struct) \w+", r"\1", " ".join(out).replace("pub ", ""))
    return len(out), re.sub(r"\b(Ticks|Pulses|Bits|u8|u16|u32|u64|usize)\b", "T", text)


def main():
    found = {}
    seen = list(sources())
    for path, lines in seen:
        for point, what, family, pattern in LINES:
            rows = [i for i, line in enumerate(lines) if re.search(pattern, line) and not ("Kept:" in line)]
            rows = [i for i in rows if not lines[i].lstrip().startswith("//") or what.startswith("a value")]
            if what.startswith("a flag"):  # "inside" a word, and FFULL, say nothing of a value beside them
                rows = [i for i in rows if not re.match(r"crates/(replay_script|receiver_status)/", path)]
            if family and rows:
                found.setdefault((point, what), []).append((path, rows[0], f"{len(rows)} rows, the first: {lines[rows[0]].strip()}", any(kept(lines, i) for i in rows)))
            elif rows:
                found.setdefault((point, what), []).extend((path, i, lines[i].strip(), kept(lines, i)) for i in rows)
        for point, what, names in FUNCTIONS:
            for i, body in items(lines, rf"^(pub )?fn ({names})\("):
                if "(register: u16" not in body[0] and not re.search(LIBRARY, " ".join(body[1:])):
                    found.setdefault((point, what), []).append((path, i, body[0], kept(lines, i)))
        for i, body in items(lines, r"^(pub )?enum "):
            cases = [b for b in body[1:-1] if re.match(r"^    [A-Z]", b)]
            bare = [b for b in cases if "(" not in b and "{" not in b]
            if len(cases) == 2 and len(bare) == 1:
                found.setdefault(("1", "an enum of the shape of Option or Result"), []).append((path, i, body[0], kept(lines, i)))
    groups = collections.defaultdict(list)
    for path, lines in seen:
        for i, body in items(lines, r"^(pub )?(fn|struct) \w"):
            words, text = shape(body)
            if words > 12:
                groups[text].append((path, i, body[0].strip(), kept(lines, i)))
    for places in groups.values():
        if len(places) > 1:
            found.setdefault(("2", "alike but for types and numbers"), []).extend(places)
    total, stays = collections.Counter(), collections.Counter()
    for (point, what), places in sorted(found.items()):
        print(f"\n{point}. {what}: {len(places)}, of which {sum(p[3] for p in places)} are kept")
        for path, i, text, why in places:
            print(f"   {'kept ' if why else '     '}{path}:{i + 1}: {text[:100]}")
            total[point] += 1
            stays[point] += why
    print()
    for point in sorted(total):
        print(f"point {point}: {total[point]} places, {stays[point]} kept")


main()

"""Refuses each growth of memory in turn, for refuse_growths and refuse_copies.

`rt try --fail-alloc N` refuses one growth of a whole run, and builds the program each time. So the programs here take
growths of their own first, as many as one of their words says: with one N and one build, another number of them refuses
another growth of what is tried. `rt` has to be there, nothing has to be built, and nothing is proved.
"""

import os
import re
import shutil
import subprocess
import sys
import tempfile

# The growth of a whole run that is refused, which is more than any run has of its own, and how many of the last ones that a
# program may take itself before it are tried.
REFUSED, TRIED = 200, 80

# Statuses of the programs: the growth that was refused came before what is tried, behind it, or left something else than
# what was there.
BEFORE, BEHIND, CHANGED = 99, 97, 98

# The answer of a run that didn't end by itself.
NONE = (-1, "")

# Each kind of call, with texts that stay whole, and texts that are joined.
SCRIPT = """\
seq_begin 9
seq_value_begin
text_begin 3
text_fragment =61
tag_hint NUMBER
text_fragment_computed =6263
text_end
seq_value_end
seq_value_begin
binary_begin -
binary_fragment =00
binary_fragment =ff
binary_end
seq_value_end
seq_value_begin
map_begin 1
map_key_begin
tagged_begin NUMBER - -
text_begin -
text_fragment =2b30
text_fragment =372e35
text_end
tagged_end NUMBER - -
map_key_end
map_value_begin
null
map_value_end
map_end
seq_value_end
seq_value_begin
record_begin - =52:VALUE_IDENT - 2
record_value_begin - =6964:VALUE_IDENT
u128 340282366920938463463374607431768211455
record_value_end - =6964
record_value_begin - =6b657973
bool true
record_value_end - =6b657973
record_end - =52 -
seq_value_end
seq_value_begin
tuple_begin - =54 1 1
tuple_value_begin - 0:VALUE_OFFSET
i128 -170141183460469231731687303715884105728
tuple_value_end - 0
tuple_end - =54 1
seq_value_end
seq_value_begin
record_tuple_begin - - - -
record_tuple_value_begin - =78 0
u8 7
record_tuple_value_end - =78 0
record_tuple_end - - -
seq_value_end
seq_value_begin
enum_begin - =45 -
tagged_begin RUST_OPTION_SOME =536f6d65:VALUE_IDENT 1:VALUE_OFFSET
text_begin -
text_fragment =64
text_end
tagged_end RUST_OPTION_SOME =536f6d65 1
enum_end - =45 -
seq_value_end
seq_value_begin
tag RUST_OPTION_NONE =4e6f6e65 0
seq_value_end
seq_value_begin
tagged_begin JSON_TEXT - -
text_begin 2
text_fragment =65
text_fragment_computed =66
text_end
tagged_end JSON_TEXT - -
seq_value_end
seq_end
"""


def write(path, text):
    """Writes a text, or bytes."""
    with open(path, "wb") as file:
        file.write(text if isinstance(text, bytes) else text.encode())


def copy_crates(top, libraries, program):
    """Copies the crates, without what rt keeps of them, and adds the program's, named growths."""
    shutil.copytree("crates", f"{top}/crates", ignore=shutil.ignore_patterns("out"))
    for name in ["crates.txt", "HANDLES"]:
        shutil.copy(name, top)
    os.makedirs(f"{top}/crates/growths/src")
    os.makedirs(f"{top}/crates/growths/cases")
    write(f"{top}/crates/growths/src/main.rt", program)
    with open(f"{top}/crates.txt", "a") as file:
        file.write(f"growths: {libraries}\n")


def case_of(what, count):
    return f"{what.replace(' ', '-')}.{count:03}"


def write_cases(folder, inputs):
    for what, script in inputs.items():
        for count in [0, *range(REFUSED - TRIED, REFUSED)]:
            name = case_of(what, count)
            write(f"{folder}/{name}", script)
            write(f"{folder}/{name}.args", f"{count}\n{what}\n")


def try_cases(crate):
    """The status of each case, and what it wrote, a letter for each byte."""
    command = ["rt", "try", "--fail-alloc", str(REFUSED), "--cases", "cases"]
    done = subprocess.run(command, cwd=crate, capture_output=True, text=True, encoding="latin-1")
    statuses = dict(re.findall(r"^case=(\S+) run=ended status=(\d+)", done.stderr + done.stdout, re.M))
    if not statuses:
        sys.exit(done.stdout + done.stderr)
    written = {}
    for part in re.split(r"^== ", done.stdout, flags=re.M)[1:]:
        name, _, text = part.partition("\n")
        written[name] = text.strip("\n")
    return {name: (int(status), written.get(name, "")) for name, status in statuses.items()}


def answers(libraries, program, inputs):
    """For each of what is tried, given with its input: what came of the refusal of each of its growths, as a status and
    what was written, and what came where none was refused."""
    with tempfile.TemporaryDirectory() as top:
        copy_crates(top, libraries, program)
        write_cases(f"{top}/crates/growths/cases", inputs)
        cases = try_cases(f"{top}/crates/growths")
    found = {}
    for what in inputs:
        # The more growths the program took itself, the earlier is the one of what is tried that is refused.
        rows = [cases.get(case_of(what, REFUSED - place), NONE) for place in range(1, TRIED + 1)]
        due = cases.get(case_of(what, 0), NONE)
        if rows[-1] != due and rows[-1][0] != BEHIND:
            sys.exit(f"{what}: more growths than are tried")
        while rows and (rows[-1] == due or rows[-1][0] == BEHIND):
            rows.pop()
        found[what] = [row for row in rows if row[0] != BEFORE], due
    return found


def ranges(numbers):
    """Numbers in order, those in a row as the first and the last of them."""
    rows = []
    for number in numbers:
        if rows and rows[-1][1] == number - 1:
            rows[-1][1] = number
        else:
            rows.append([number, number])
    return ", ".join(str(a) if a == b else f"{a} to {b}" for a, b in rows) or "none"


def print_table(found):
    """A line for each of what was tried. What was written with status 10 has to begin what is due."""
    print("| tried | growths | status 10 | of these, something written | gone without | else |")
    print("|---|---|---|---|---|---|")
    for what, (rows, due) in found.items():
        numbered = list(enumerate(rows, 1))
        refused = [number for number, (status, text) in numbered if status == 10 and due[1].startswith(text)]
        written = [number for number in refused if rows[number - 1][1]]
        without = [number for number, row in numbered if row == due]
        other = [f"{number}: {row}" for number, row in numbered if number not in refused + without]
        columns = [what, len(rows), ranges(refused), ranges(written), ranges(without), ", ".join(other) or "none"]
        print("|", " | ".join(map(str, columns)), "|")
        if due[0] != 0:
            print(f"{what}: status {due[0]} where no growth is refused")

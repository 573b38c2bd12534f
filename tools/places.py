"""Lists the lines of src/ at a commit that have one of the older forms: usage: python3 tools/places.py COMMIT [POINT].

By text alone, so a line is a place to look at and no verdict; docs/DESIGN-PASS.md says what was found at each. Tests are left out.
"""

import re
import subprocess
import sys

FORMS = {
    "1 flags and numbers": [
        r"-> i8\b|: i8\b",
        r"step: u8|Listing\((usize, )?u8\)|letter: char",
        r"referenced: bool|answer: &mut",
        r"fn (require|limit|put)\(&mut self.*-> bool",
        r"Option<(Infeasible|Stage)>",
        r"Err\(fault\) => (Err|Some)\(fault\)|None => Err\(Mistake|let Some\(.*split_once",
    ],
    "2 twins": [
        r"\benum (Mistake|Stop|Flaw)\b|struct (BasePoints|ShadowPrices|References|Points|TermLine|ParticipantTerm|Words|Shares)\b",
        r"fn (hold|few|submit|refer|padded|all_reachable|all_payable|first_outside|hold_limits|top_level|last_level|submitted)\b",
        r"fn (print_error|print_refusal|print_flows|read_input|read_all|set_cap|read_line|worked_examples)\b",
        r"fn (amount|sided|injection|climb|descend|last_objects|next_objects|read_digits|read_price|clamp_u\d+|bus_of|level_of|cents_of)\b",
        r"fn (read_row|read_block_row|read_shares|read_references|read_term|read_base|read_yes_or_no|read_subject)\b|const COMMITTED_FLOOR",
        r"impl.* From<.*> for Stop",
    ],
    "3 loops that count by hand": [
        r"\bwhile\b(?! the| its)",
        r"\b[a-z_.]+\[(i|place|bus|line|participant|place as usize|participant as usize|self\.count|self\.len)\]",
    ],
    "4 written by hand": [
        r"fn (class_of|stage_of|reason|side_of|write_line|told|objecting|clamp_u\d+|bus_of|level_of|cents_of)\b",
        r"matches!",
    ],
    "5 facts and parameters": [
        r"^\s*(constraints: &Constraints,|stage: Stage,)|constraints: &Constraints, (stage|line)",
        r"requires (lmp|side|from|\{ \(negsuc 32999999999)",
        r"ensures (book|network) \{ self\.new",
    ],
    "6 tables and parallel arrays": [
        r"^\s*(pub(\(crate\))? )?(count|len): usize,",
        r"^\s*(pub(\(crate\))? )?[a-z]+: \[[A-Za-z0-9]+; [0-9A-Z]+\],$",
    ],
    "7 switches": [
        r"is_bounded: bool|BufReader::new",
    ],
}


def lines(commit):
    names = subprocess.run(["git", "ls-tree", "-r", "--name-only", commit, "crates"], capture_output=True, text=True, check=True)
    for name in names.stdout.split("\n"):
        parts = name.split("/")
        if len(parts) < 4 or parts[2] != "src" or not name.endswith(".rt"):
            continue
        if parts[1].endswith("_tests") or name.endswith("tests.rt"):
            continue
        text = subprocess.run(["git", "show", f"{commit}:{name}"], capture_output=True, text=True, check=True).stdout
        for number, line in enumerate(text.split("\n"), 1):
            if not line.lstrip().startswith("//"):
                yield "/".join(parts[1:]), number, line


def main(commit, point):
    found = {form: [] for form in FORMS}
    for name, number, line in lines(commit):
        for form, patterns in FORMS.items():
            if any(re.search(pattern, line) for pattern in patterns):
                found[form].append(f"  {name}:{number}: {line.strip()[:100]}")
    for form, places in found.items():
        if form.startswith(point):
            print(f"{form}: {len(places)}")
            print("\n".join(places))


if __name__ == "__main__":
    main(sys.argv[1], sys.argv[2] if len(sys.argv) > 2 else "")

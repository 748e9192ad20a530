"""A demand policy made as the twin of one that is there: its module, its row and its word, and its lines in the pages.

The twin has the model's rule under another name, so all of it is proved; its maker then writes the rule anew. Nothing here
knows a policy: each place that names the model has the twin named beside it.
"""
import re
from typing import NamedTuple

JOB = "crates/step_record/specs/Job.antt"
# Where each policy is a module, and the lists of modules there.
PAGES = "crates/policy_pages"
MODULES = [f"{PAGES}/{it}" for it in ("src/lib.rt", "specs/Lib.antt", "proofs/Lib.antt")]
# What has a policy's row, and what has its word.
ROW = ["crates/demand_cache/src/demand_policy.rt", "crates/demand_cache/specs/DemandPolicy.antt", "crates/demand_cache/proofs/Keeping.antt",
       "crates/demand_cache/proofs/RenamedPlans.antt"]
WORD = ["crates/step_record/src/job.rt", JOB, "crates/policies/src/design.rt", "crates/policies/specs/Design.antt"]
# Where a step that requires a state has it.
ANSWERS = [f"crates/demand_cache/proofs/demand_policy/DemandPolicy/{it}/Answers.antt"
           for it in ("count_out", "queue_rows", "step")]
OPTIONS = "crates/command_line/src/options.rt"
EXAMPLES = "crates/policy_tests/src/example_tests.rt"
REFERENCE = "checks/cache_reference/demand_policies.py"
STYLES = "tools/lib/policies.py"
GUIDE, SOURCES = "docs/GUIDE.md", "docs/SOURCES.md"
NOT_YET = "to be written"


class Policy(NamedTuple):
    """A policy by its module, its variant in code and definitions, and its word."""
    module: str
    variant: str
    word: str


def policy_of(top, word):
    """The demand policy that a word of the program names."""
    found = re.search(rf'^word_of (\w+) = codes "{re.escape(word)}"$', (top / JOB).read_text(), re.M)
    variant = found[1] if found else ""
    if not (top / PAGES / f"specs/{variant}Plan.antt").exists():
        raise ValueError(f"there is no policy {word} with a page of its own")
    return Policy(re.sub(r"(?<=[a-z0-9])(?=[A-Z])", "_", variant).lower(), variant, word)


def named(word):
    if not re.fullmatch(r"[a-z][a-z0-9]*(-[a-z0-9]+)*", word):
        raise ValueError(f"`{word}` is no name: small letters and digits, joined by single dashes")
    return Policy(word.replace("-", "_"), "".join(it.capitalize() for it in word.split("-")), word)


def is_comment(line):
    return re.match(r"\s*(///|//(?!!)|--|#)", line) is not None


class Twin:
    """The new policy beside its model."""

    def __init__(self, model, own):
        self.model, self.own = model, own
        bounded = r"(?<![A-Za-z0-9]){}(?![A-Za-z0-9])"
        dashed = model.module.replace("_", "-")
        pairs = [(rf'(["`]){re.escape(model.word)}(["`])', rf"\g<1>{own.word}\g<2>"),
                 (bounded.format(rf"{dashed}(?=-)|(?<=-){dashed}"), own.module.replace("_", "-")), (bounded.format(model.module), own.module),
                 (bounded.format(re.escape(model.word.upper())), own.word.upper()), (rf"{model.variant}(?![a-z])", own.variant)]
        self.changes = [(re.compile(old), new) for old, new in pairs]

    def renamed(self, text):
        for old, new in self.changes:
            text = old.sub(new, text)
        return text

    def is_named(self, line):
        return not is_comment(line) and self.renamed(line) != line

    def own_files(self, top):
        """The files of the new module. The mutations are the model's alone."""
        folder, variant = top / PAGES, self.model.variant
        files = [folder / f"src/{self.model.module}.rt", *folder.glob(f"specs/{variant}*.antt"), *folder.glob(f"proofs/{variant}*.antt"),
                 *folder.glob(f"proofs/{self.model.module}/**/*.antt")]
        for path in sorted(files):
            yield self.renamed(str(path.relative_to(top))), self.renamed(path.read_text())

    def shared_files(self, top):
        """The text of each file that policies share, with the new one in it."""
        files = {
            **dict.fromkeys([*MODULES, *ROW, *ANSWERS, *WORD], self.beside),
            OPTIONS: self.in_options, EXAMPLES: self.in_examples, REFERENCE: self.in_reference, STYLES: self.in_styles,
            GUIDE: self.in_guide, SOURCES: self.in_sources}
        for file, change in files.items():
            old = (top / file).read_text()
            try:
                new = change(old)
            except ValueError as fault:
                raise ValueError(f"{file}: {fault}") from fault
            if new == old and file not in ANSWERS or file in [*ROW, *WORD] and self.own.variant not in new:
                raise ValueError(f"{file} does not name {self.model.word} where its twin is to stand")
            yield file, new

    # Lists and lines of code

    def in_names(self, names):
        """Names of a list with the new ones beside the model's."""
        return re.sub(r"\w[\w-]*", lambda it: it[0] if (new := self.renamed(it[0])) == it[0] else f"{it[0]}, {new}", names[0])

    def in_list(self, line, following=""):
        """The line with the new name beside the model's, where that is one of a list, or of patterns that `|` joins."""
        head, brace, names = line.partition("{")
        if re.match(r"\s*(pub )?(ghost )?use ", line) and brace and self.renamed(head) == head:
            return head + brace + self.in_names([names])
        if " ∷ " in line and " = " not in line:
            return re.sub(rf"\b{self.model.variant}\b", f"{self.model.variant} ∷ {self.own.variant}", line)
        if re.search(r"(^|\s)\| ", line) and not line.startswith("|") or re.match(r"\s+\| ", following):
            return re.sub(rf"\w+::{self.model.variant}(\(_\))?(?!\w)", lambda it: f"{it[0]} | {self.renamed(it[0])}", line)
        if re.fullmatch(r"\s+(\w+, )+\w+,?\n", line):
            return re.sub(rf"\b{self.model.variant}\b", f"{self.model.variant}, {self.own.variant}", line)
        return None

    def beside(self, text):
        """The text with a twin of each piece that names the model: lines that follow one another, with the comment above them."""
        lines, made, at = text.splitlines(keepends=True), [], 0
        while at < len(lines):
            listed = self.in_list(*lines[at:at + 2]) if self.is_named(lines[at]) else lines[at]
            if listed is not None:
                made.append(listed)
                at += 1
                continue
            begin = len(made)
            while begin and is_comment(made[begin - 1]):
                begin -= 1
            end = piece_end(lines, at)
            while end < len(lines) and self.is_named(lines[end]) and self.in_list(*lines[end:end + 2]) is None:
                end = piece_end(lines, end)
            piece = made[begin:] + lines[at:end]
            is_apart = (not begin or not made[begin - 1].strip()) and (end == len(lines) or not lines[end].strip())
            made += [*lines[at:end], "\n" * is_apart, *map(self.renamed, piece)]
            at = end
        return re.sub(r"(?<=\[Policy; )\d+", lambda it: str(int(it[0]) + 1), "".join(made))

    # The other files

    def in_guide(self, text):
        """A row below the model's."""
        row = self.row_of(text, f"| `{self.model.word}` | ")
        return text.replace(row, f"{row}| `{self.own.word}` | {NOT_YET} |\n")

    def in_sources(self, text):
        """A row at the end of the first table."""
        row = re.search(r"^\|.*\n(?!\|)", text, re.M)
        return f"{text[:row.end()]}| {NOT_YET} | `{self.own.word}` |\n{text[row.end():]}"

    def row_of(self, text, begin):
        """The model's row of a table of a page or of a script."""
        rows = re.findall(rf"^{re.escape(begin)}.*\n", text, re.M)
        if len(rows) != 1:
            raise ValueError(f"{len(rows)} rows begin with `{begin}`")
        return rows[0]

    def in_options(self, text):
        """The word in the lists of help, each of which ends its line."""
        return re.sub(rf"\b{re.escape(self.model.word)}(?=(, [\w-]+)*\]\",)", f"{self.model.word}, {self.own.word}", text)

    def in_examples(self, text):
        """The model's first worked example a second time."""
        found = re.search(rf"^    Example \{{\n        policy: {self.model.variant},\n(?:        .*\n)+    \}},\n", text, re.M)
        if not found:
            raise ValueError(f"no example of {self.model.variant}")
        before, after = text[:found.end()], text[found.end():]
        head, number, rest = before.rpartition("[Example; ")
        count = re.match(r"\d+", rest)[0]
        before = f"{head}{number}{int(count) + 1}{rest[len(count):]}"
        return re.sub(r"(?<=^use Policy::\{)[^}]*", self.in_names, before, flags=re.M) + self.renamed(found[0]) + after

    def in_reference(self, text):
        """The model's class a second time, and the row that opens it."""
        own = re.search(rf"^class {self.model.variant}\(.*\n(?:(?:    .*)?\n)*", text, re.M)
        row = re.search(rf'^    "{re.escape(self.model.word)}": .*\n', text, re.M)
        if not own or not row:
            raise ValueError(f"no class and row of {self.model.word}")
        for piece, between in ((own[0], "\n\n\n"), (row[0], "\n")):
            text = text.replace(piece, piece.rstrip("\n") + between + self.renamed(piece))
        return text

    def in_styles(self, text):
        """A row with a colour, a marker and a dash that no other one has."""
        markers = re.findall(r'^    "?[\w-]+"?: Policy\("#\w+", (\d+), ', text, re.M)
        row = self.row_of(text, f'    "{self.model.word}": Policy(')
        marker = max(map(int, markers)) + 1
        style = f'"#{0x3b7d00 + 0x010511 * marker:06x}", {marker}, "(1,{marker})"'
        return text.replace(row, f'{row}    "{self.own.word}": Policy({style}, False, False),\n')


def piece_end(lines, at):
    """Behind the last line of the piece that begins there: a function's to its brace, another's to where brackets are closed."""
    indent = re.match(r"\s*", lines[at])[0]
    if re.match(r"\s*(pub(\(\w+\))? )?fn ", lines[at]):
        return next(it for it in range(at, len(lines)) if lines[it].rstrip() == f"{indent}}}") + 1
    depth, end = 0, at
    while True:
        depth += sum(lines[end].count(it) for it in "([{") - sum(lines[end].count(it) for it in ")]}")
        end += 1
        is_continued = end < len(lines) and re.match(rf"{indent}\s+\S", lines[end]) and not lines[end - 1].rstrip().endswith((",", ";"))
        if end == len(lines) or depth <= 0 and not is_continued:
            return end


def files_of(top, model, own):
    """The text of each file of the new policy's own, and of each that it shares with others."""
    twin = Twin(policy_of(top, model), named(own))
    if (top / PAGES / f"src/{twin.own.module}.rt").exists():
        raise ValueError(f"there is a module {twin.own.module}")
    return dict(twin.own_files(top)), dict(twin.shared_files(top))


def crates_above(top, changed):
    """The crates that change, and those that stand on them."""
    below = {}
    for line in (top / "crates.txt").read_text().splitlines():
        if re.match(r"\w", line):
            head, _, names = line.partition(":")
            below[head.split()[0]] = set(names.split())
    above = set(changed)
    while more := {crate for crate, names in below.items() if names & above} - above:
        above |= more
    return above, set(below)

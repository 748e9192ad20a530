"""What documents claim of the sources: each name that they give stands where they say.

Each function returns what is wrong, as texts. PROOFS has tables of claims: a function with its file, a definition of the
same crate or of another one that is named, and a mutation. The documents of NAMING name nothing that is not there, and each
crate of crates.txt has one row of ARCHITECTURE, in the same order, which is the first sentence of its root file; but
for the crates of tests, which it names together. Each link of each document leads to a file that is there, and to a heading
of it.
"""
import re

CLAIMS = "| Claim | Function | Definition | Mutation |"
CODE = re.compile(r"`([^`]+)`")
FILE = re.compile(r"`(\w+)/(src/[\w/]*(?:\.rt)?)`")
LINK = re.compile(r"\]\(([^)#\s]*)(?:#([^)\s]*))?\)")
FENCED = re.compile(r"^```.*?^```$", re.M | re.S)
# Tools that have names of small repositories of their own.
NAMING_OTHERS = ("check_tools", "check_new_policy")
# Documents of which each name in the sources is looked up.
NAMING = ("CONTRIBUTING.md", *(f"docs/{it}.md" for it in ("PROOFS", "PROVING", "ARCHITECTURE", "DECISIONS")))


class Sources:
    """The texts of the crates, by kind, and every word that stands in them."""

    def __init__(self, top):
        self.top, self.crates = top, sorted(it.name for it in (top / "crates").iterdir() if it.is_dir())
        self.src = {crate: {str(it.relative_to(top / "crates" / crate)): it.read_text()
                            for it in (top / "crates" / crate).glob("src/**/*.rt")} for crate in self.crates}
        self.specs = {crate: {it.stem: it.read_text() for it in (top / "crates" / crate).glob("specs/**/*.antt")}
                      for crate in self.crates}
        self.mutations = {it.stem for it in top.glob("crates/*/must-fail/*.edit")}
        more = [it.read_text(errors="replace") for pattern in ("crates/*/proofs/**/*.antt", "checks/*", "checks/*/*.py", "tools/*", "tools/lib/*")
                for it in top.glob(pattern) if it.is_file() and it.name not in NAMING_OTHERS]
        texts = [text for kind in (self.src, self.specs) for files in kind.values() for text in files.values()]
        self.words = set(re.findall(r"\w+", "\n".join(texts + more))) | self.mutations | {*self.crates}
        self.words |= set(re.findall(r"\w+", " ".join(str(it.relative_to(top)) for it in top.glob("crates/*/*/**/*"))))

    def has_function(self, name, crate, file):
        """Whether a function or a type stands in a file, or in a folder of files; in any where none is named."""
        found = re.compile(rf"\b(fn|struct|trait|enum|type) {re.escape(name)}\b")
        return any(found.search(text) for it, files in self.src.items() for at, text in files.items()
                   if crate in (None, it) and (file is None or at == file or file.endswith("/") and at.startswith(file)))

    def has_definition(self, name, crate):
        """Whether a crate has a module of this name in specs/, or a definition in one."""
        files = self.specs.get(crate, {})
        found = re.compile(rf"(^|\s){re.escape(name)}\s*[:(]|(record|data|abbrev|class) (pub )?{re.escape(name)}\b", re.M)
        return name in files or any(map(found.search, files.values()))


def wrong_claims(top, sources):
    text, last, is_table, count = (top / "docs/PROOFS.md").read_text(), (None, None), False, 0
    for line in text.splitlines():
        is_table = line.startswith("|") and (is_table or line == CLAIMS)
        if not is_table or line == CLAIMS or line.startswith("|---"):
            continue
        cells, count = [it.strip() for it in re.split(r"(?<!\\)\|", line)[1:-1]], count + 1
        if len(cells) != 4:
            yield f"a row has {len(cells)} cells: {line[:60]}"
            continue
        for part in cells[1].split(";"):
            last = (FILE.findall(part) or [last if "the same" in part else (None, None)])[0]
            names = [it.split("::")[-1] for it in CODE.findall(FILE.sub("", part))]
            yield from (f"no {it} in {last[0] or 'any crate'}/{last[1] or 'src'}" for it in names if not sources.has_function(it, *last))
        for part in cells[2].split(";"):
            named = re.search(r"of `(\w+)`", part)
            own = FILE.findall(cells[1]) or [last]
            homes = [named[1]] if named else [crate for crate, _ in own] if own[0][0] else sources.crates
            names = [it for it in CODE.findall(part) if not named or it != named[1]]
            yield from (f"no definition {it} in {', '.join(homes[:3])}" for it in names
                        if not any(sources.has_definition(it, crate) for crate in homes))
        yield from (f"no mutation {it}" for it in CODE.findall(cells[3]) if it not in sources.mutations)
    if not count:
        yield "there is no table of claims"


def wrong_names(top, sources, document):
    """What a document names that is nowhere: a path, or a word."""
    for code in CODE.findall(FENCED.sub("", (top / document).read_text())):
        if re.fullmatch(r"[\w.-]+(/[\w.-]*)+", code):
            places = (top / code, top / "crates" / code, top / "docs" / code)
            is_there = any(it.exists() for it in places) or any(top.glob(f"crates/*/{code}"))
            if not is_there and not re.search(r"\b(NAME|CRATE|PLAIN_NAME|out)\b", code):
                yield f"there is no file {code}"
        elif re.fullmatch(r"[A-Za-z_]\w*(::\w+)*", code):
            yield from (f"there is no {code}" for it in code.split("::") if it not in sources.words)


def wrong_links(top, document):
    for name, heading in LINK.findall(FENCED.sub("", (top / document).read_text())):
        file = (top / document).parent / name if name else top / document
        if "://" not in name and not file.exists():
            yield f"there is no {name}, to which a link leads"
        elif heading and heading not in headings_of(file):
            yield f"{file.name} has no heading {heading}, to which a link leads"


def headings_of(document):
    """The headings of a document as links name them."""
    heads = re.findall(r"^#+ (.*)$", FENCED.sub("", document.read_text()), re.M)
    return {re.sub(r"[^\w -]", "", it.lower()).replace(" ", "-") for it in heads}


def wrong_crates(top):
    """Crates without their row of ARCHITECTURE or with another, rows without a crate, and rows in another order."""
    text = (top / "docs/ARCHITECTURE.md").read_text().partition("\n## Crates\n")[2].partition("\n## ")[0]
    crates = [line.split(":")[0].split()[0] for line in (top / "crates.txt").read_text().splitlines() if re.match(r"\w", line)]
    rows = re.findall(r"^\| `(\w+)` \| (.*) \|$", text, re.M)
    named = [name for name, _ in rows]
    if [it for it in named if it in crates] != [it for it in crates if it in named]:
        yield "its rows are in another order than crates.txt has"
    for crate in crates:
        if named.count(crate) != 1 and not (crate.endswith("_tests") and f"`{crate}`" in text):
            yield f"{crate} has {named.count(crate)} rows"
    for name, row in rows:
        if name not in crates:
            yield f"there is no crate {name}"
        elif (sentence := root_sentence(top / "crates" / name)) != (wanted := sentence_of(row)):
            yield f"the root file of {name} begins '{sentence}', its row has '{wanted}'"


def root_sentence(crate):
    root = next((it for name in ("lib", "main") if (it := crate / f"src/{name}.rt").exists()), None)
    text = re.match(r"(//!.*\n)*", root.read_text())[0] if root else ""
    return re.split(r"(?<=\.)\s", re.sub(r"\s*//!\s*", " ", text).strip())[0]


def sentence_of(row):
    text = re.sub(r" \(\[.*?\]\(.*?\)\)", "", row)
    return f"{text[0].upper()}{text[1:]}."


def wrong(top, documents):
    """All that is wrong, each with its document."""
    sources = Sources(top)
    found = {"docs/PROOFS.md": list(wrong_claims(top, sources)), "docs/ARCHITECTURE.md": list(wrong_crates(top))}
    for document in documents:
        names = wrong_names(top, sources, document) if document in NAMING else []
        found[document] = [*found.get(document, []), *names, *wrong_links(top, document)]
    return [f"{document}: {it}" for document, texts in found.items() for it in dict.fromkeys(texts)]

"""A crate with edits of tools/prove/mutations, as one check of tools/try-edits has it, and what that check says of each.

Of the crate's other functions no body is read, and no proof: each has a body that never ends, and that it meets its
contract stands on one hole, `assumed`. So a check takes little more time than the functions with edits do.
"""

import functools
import pathlib
import re

from prove.source_functions import functions_of, types_of

WRITTEN = ("Answers.antt", "Invariants.antt", "Proof.antt")
ASSUMED = "pub assumed {ℓ} : {A : Type ℓ} → A\nassumed = ?\n"
HOLE = """use Rattle.{crate}.proofs.{path}.Statement.{{statement}}
use Rattle.{crate}.proofs.Assumed.{{assumed}}

pub {name}_spec : {{M : Type 1}} → statement M
{name}_spec = assumed
"""

# An error of a written proof: its file, the goal or lemma, and what is wrong with it, which may go on on further lines.
ERROR = r"(?m)^\./proofs/(\S+)\.antt:\d+:\d+: error: `([^`]*)`: (.*(?:\n  .*)*)$"


class Crate:
    """A crate as it stands: the texts of its files by their paths, and where its functions and types are."""

    def __init__(self, folder):
        self.folder, self.name = folder, folder.name
        files = [it for part in ("src", "specs", "proofs") for it in (folder / part).rglob("*") if it.is_file()]
        self.texts = {str(it.relative_to(folder)): it.read_text(encoding="utf-8") for it in files}
        sources = {path: text for path, text in self.texts.items() if path.endswith(".rt")}
        self.types = {name: self.module(path) for path, text in sources.items() for name in types_of(text)}
        found = [(path, it) for path, text in sources.items() for it in functions_of(text)]
        self.functions = {self.path_of(path, it): it for path, it in found}

    def calls_of(self, function):
        """Returns the names of what a function may call."""
        return self.functions[function].calls() if function in self.functions else set()

    def module(self, path):
        """Returns the path of a source's module."""
        return [it for it in pathlib.PurePath(path).with_suffix("").parts[1:] if it not in ("lib", "main", "mod")]

    def path_of(self, path, function):
        """Returns the whole name of a source's function, as a check prints it. A method's begins where its type is."""
        above = self.types.get(function.type, self.module(path)) + [function.type] * bool(function.type)
        return "::".join([self.name, *above, function.name])

    @functools.lru_cache(maxsize=None)
    def copy_of(self, edit, ending=""):
        """Returns an edit's function with the edit, under a name that ends so; or None if there is no such copy, or a
        proof beside the function's names what is the function's, or its own is one of a cycle."""
        above = proofs_of(edit.function)
        (path, *more) = {path for path, _, _ in edit.changes}
        if more or not path.startswith("src/") or f"{above}.antt" in self.texts or self.is_cited(above):
            return None
        if self.calls_itself(edit.function):
            return None
        text = self.texts[path]
        changes = [(old, new) for _, old, new in edit.changes]
        found = [it for it in functions_of(text) if self.path_of(path, it) == edit.function]
        return found[0].copy(text, found[0].name + ending, changes) if found else None

    def calls_itself(self, function):
        """Returns whether what is written for a function's proof is for one that calls itself. A name alone doesn't tell: a
        rule's `write` calls a condition's."""
        above, _, name = proofs_of(function).rpartition("/")
        return any(it.startswith(f"{above}/+{name}/") for it in self.texts)

    def is_cited(self, folder):
        """Returns whether a proof outside a folder names what is in it."""
        name = folder.replace("/", ".")
        cited = re.compile(rf"\b{re.escape(name)}\b")
        proofs = {path: text for path, text in self.texts.items() if path.endswith(".antt") and name in text}
        return any(cited.search(text) for path, text in proofs.items() if not path.startswith(f"{folder}/"))


def proofs_of(function):
    """Returns the path of the folder of what is written for the proof of a function."""
    return "/".join(["proofs", *function.split("::")[1:]])


class EditedCrate:
    """The texts of a crate with some edits: each on a copy of its function if it has one, and else in place."""

    def __init__(self, crate, edits):
        self.crate, self.texts = crate, dict(crate.texts)
        self.copies = {it: f"_edited_{number}" for number, it in enumerate(edits) if crate.copy_of(it)}
        self.missing = []
        for edit in edits:
            if edit not in self.copies:
                after = edit.applied(self.texts)
                self.missing += [edit] if after is None else []
                self.texts = after or self.texts
        in_place = {it.function for it in edits if it not in self.copies}
        self.write_proofs_of_copies()
        for it in in_place:
            self.write_answers(it)
        for path in [it for it in crate.texts if it.endswith(".rt")]:
            self.leave_bodies_out(path, in_place)
        self.texts["proofs/Assumed.antt"] = ASSUMED
        self.texts["proofs/Lib.antt"] = "mod Assumed\n" + self.texts.get("proofs/Lib.antt", "")

    def asked(self, edit):
        """Returns the function whose proof an edit must break, or its copy."""
        return edit.function + self.copies.get(edit, "")

    def leave_bodies_out(self, path, in_place):
        """Leaves the bodies and proofs of a source's functions out, but for those with an edit in place and those in a
        cycle with one of these, and writes the copies."""
        text, written = self.texts[path], ""
        functions = functions_of(text)
        cycles = {it.cycle() for it in functions if self.crate.path_of(path, it) in in_place} - {None}
        end = 0
        for it in functions:
            name = self.crate.path_of(path, it)
            written += text[end : it.start]
            for edit, ending in self.copies.items():
                if edit.function == name and not it.is_of_trait:
                    written += self.crate.copy_of(edit, ending) + "\n"
            is_kept = it.is_of_trait or name in in_place or it.cycle() in cycles
            written += it.head + it.body if is_kept else it.without_body()
            end = it.end
            if not is_kept:
                self.leave_proof_out(name, it.cycle())
        self.texts[path] = written + text[end:]

    def leave_proof_out(self, function, cycle):
        """Writes the hole in place of what is written for a function's proof."""
        folder = proofs_of(function)
        above, _, name = folder.rpartition("/")
        gone = [f"{folder}/{it}" for it in WRITTEN] + [it for it in self.texts if it.startswith(f"{above}/+{cycle}/")]
        for it in gone:
            self.texts.pop(it, None)
        path = folder.removeprefix("proofs/").replace("/", ".")
        self.texts[f"{folder}/Proof.antt"] = HOLE.format(crate=self.crate.name, path=path, name=name)

    def write_answers(self, function):
        """Writes an empty file of answers for a function that has none. If there is none, a check of a wrong body makes
        one to print it, which takes it some time. A function that calls itself has its answers in another folder."""
        folder = proofs_of(function)
        is_written = any(f"{folder}/{it}" in self.texts for it in ("Answers.antt", "Proof.antt"))
        if not is_written and not self.crate.calls_itself(function):
            self.texts[f"{folder}/Answers.antt"] = "-- found by search\n"

    def write_proofs_of_copies(self):
        """Writes for each copy what is written for its function's proof."""
        for edit, ending in self.copies.items():
            folder = proofs_of(edit.function)
            name = folder.replace("/", ".")
            for path, text in self.crate.texts.items():
                if path.startswith(f"{folder}/"):
                    text = re.sub(rf"\b{re.escape(name)}\b", name + ending, text)
                    self.texts[path.replace(folder, folder + ending, 1)] = text
            self.write_answers(edit.function + ending)

    def write(self, folder):
        """Writes the crate into a folder that isn't there."""
        for path, text in self.texts.items():
            (folder / path).parent.mkdir(parents=True, exist_ok=True)
            (folder / path).write_text(text, encoding="utf-8")


class Said:
    """What a check past the hole said of some functions."""

    def __init__(self, text):
        self.text = text
        self.of = dict(re.findall(r"(?m)^fn (\S+): (.*)$", text))
        self.has_ended = bool(re.search(r"(?m)^only=\d+ holes=\d+$", text))

    def open_goals(self, function):
        """Returns the goals of a function's proof that are open, and the lemmas that it stands on and that are refused.
        Not those for which a written proof only names something that is gone: that would be refused of a right body too.
        If what is gone is a goal, none of those counts for which nothing is written."""
        above, _, last = function.partition("::")[2].replace("::", "/").rpartition("/")
        place = re.compile(re.escape(above + "/" if above else "") + r"\+?" + re.escape(last) + r"/\w+")
        gone = r"has no field|is not in scope|has no `|was not admitted"
        refused, told, said, is_goal_gone = [], set(), self.of.get(function, ""), False
        for path, name, why in re.findall(ERROR, self.text):
            lemma = f"{path.replace('/', '.')}.{name}"
            if place.fullmatch(path) or f".proofs.{lemma}`" in said:
                refused.append(name if place.fullmatch(path) else lemma)
                told |= set() if re.search(gone, why) else {refused[-1]}
                is_goal_gone |= f"has no `{name}`" in why
        asked = re.findall(r"(?m)^note: `([^`]*)` of proofs/(\S+)\.antt must prove", self.text)
        found = [name for name, path in asked if place.fullmatch(path)]
        found += re.findall(r"`([^`]*)`", said.partition("did not prove ")[2].partition("; it ")[0])
        found = refused + found * (not is_goal_gone)
        return [it for it in dict.fromkeys(found) if it in told or it not in refused]

    def verdict(self, edit, function):
        """Returns whether an edit is refused by its goal, or None if its function waits for another, is refused by
        other goals alone, or has no verdict; and why."""
        if not self.has_ended:
            return None, f"no verdict: {self.text[:600]}"
        found = self.of.get(function, "could not tell: it is not among the functions that were checked")
        if found.startswith("could not tell"):
            return None, found
        if not found.startswith(("not proved", "no proof")):
            return False, f"not refused: {edit.function}: {found}"
        goals = self.open_goals(function)
        if edit.goal not in goals:
            return None, f"{edit.function} has other open goals than {edit.goal}: {', '.join(goals) or found}"
        return True, f"refused at {edit.function}, by {edit.goal}"

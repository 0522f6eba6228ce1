"""Mutations: edits of a crate's sources for which the checker must refuse the function that they change."""
import os
import re
import shutil
import tempfile

HEADER = re.compile(r"(?m)^(?:pub(?:\([^)]*\))? )?(?:unsafe )?(?:(impl)\b([^{]*)|mod\b|struct\b|enum\b|trait\b)")
FUNCTION = re.compile(r"(?m)^( *)(?:pub(?:\([^)]*\))? )?(?:const )?(?:extern \S+ )?fn (\w+)")
# A method, or a function in a module. The bare name of a function in a root file could also be the name of a module.
FUNCTION_PATH = re.compile(r"::\w+\Z")
COUNTS = re.compile(r"only=(\d+) proved=(\d+)\Z")
# A function that is refused only because of one that it calls. If several mutations are tried together, another mutation may be the cause.
FOR_ANOTHER = re.compile(r": (?:not proved;|no proof:) it calls `[^`]*`")


def module_of(path):
    """The path of the module that a file in src/ defines, as a check names it: empty for the root."""
    names = path.removeprefix("src/").removesuffix(".rt").split("/")
    return [] if names in (["lib"], ["main"]) else [name for name in names if name != "mod"]


def type_of(header):
    """The type of an impl, as a check names it, followed by the trait if there is one."""
    plain = re.sub(r"<[^<>]*>", "", re.sub(r"<[^<>]*>", "", header)).split(" where ")[0].split()
    names = [name.rpartition("::")[2] for name in plain if name != "for"]
    return "".join(reversed(names))


def function_at(path, text, at):
    """The function that contains a position in a file's text, as the end of the path by which a check names it. A method is named by its type, in whatever
    module it is defined. Outside of all functions, the file's module."""
    module, found = module_of(path), None
    for found in FUNCTION.finditer(text, 0, at):
        pass
    if not found:
        return "::".join(module)
    if not found[1]:
        return "::".join([*module, found[2]])
    for header in HEADER.finditer(text, 0, found.start()):
        pass
    return f"{type_of(header[2])}::{found[2]}"


def changed_functions(folder, edit):
    """The functions that a mutation changes."""
    functions, path = [], ""
    with open(edit, encoding="utf-8") as file:
        lines = file.read().split("\n")
    for line in lines:
        word, _, text = line.partition(": ")
        if word == "file":
            path = text
        elif word == "old":
            with open(os.path.join(folder, path), encoding="utf-8") as file:
                source = file.read()
            functions.append(function_at(path, source, source.find(text)))
    return list(dict.fromkeys(functions))


def rounds_of(crate, edits):
    """Groups mutations into rounds. Those of one round change different functions, none of which is a whole module, so that the result of each function
    belongs to one mutation."""
    rounds = []
    for edit in edits:
        functions = changed_functions(crate.folder, edit)
        is_apart = all(FUNCTION_PATH.search(it) for it in functions)
        fitting = (it for it in rounds if is_apart and it.is_apart and not it.functions & {*functions})
        found = next(fitting, None) or Round(is_apart)
        if not found.edits:
            rounds.append(found)
        found.edits[edit] = functions
    return rounds


class Round:
    """Mutations that one check tries together, with the functions that each changes."""

    def __init__(self, is_apart):
        self.is_apart, self.edits = is_apart, {}

    @property
    def functions(self):
        return {it for functions in self.edits.values() for it in functions}

    def texts(self, module, crate):
        """The texts of the sources with all mutations applied, or why one of them cannot be applied."""
        texts = {}
        with tempfile.TemporaryDirectory() as folder:
            shutil.copytree(f"{crate.folder}/src", f"{folder}/src")
            for edit in self.edits:
                changed, why = module.read_edit(edit, folder)
                if why:
                    return None, f"{name_of(crate, edit)}: BAD EDIT: {why}"
                for path, text in changed.items():
                    with open(f"{folder}/{path}", "w", encoding="utf-8") as file:
                        file.write(text)
                texts |= changed
        return texts, None

    def checked(self, module, crate, texts, kept):
        """Checks the functions with these texts in place of the crate's own, reusing what earlier checks kept. Returns the status and the lines of the
        output."""
        flags = ["--jobs", "1", *(word for it in sorted(self.functions) for word in ("--only", it))]
        ran = module.checked(crate, texts, flags, kept)
        return ran.returncode, ran.stdout.rstrip("\n").split("\n")

    def judged(self, module, crate, kept):
        """For each mutation, whether the checker refuses a function that it changes, and the line to print."""
        texts, why = self.texts(module, crate)
        if why:
            return [(False, why)]
        status, lines = self.checked(module, crate, texts, kept)
        unread = next((line for line in lines if module.unread(line, texts)), None)
        if unread:
            names = ", ".join(name_of(crate, edit) for edit in self.edits)
            return [(False, f"{names}: BAD EDIT: the checker cannot read it, so no contract was tried: {unread[:200]}")]
        return [self.one(module, crate, kept, edit, status, lines) for edit in self.edits]

    def one(self, module, crate, kept, edit, status, lines):
        """The result of one mutation. It is tried again alone if its function may have been refused because of another mutation."""
        is_refused, line = one_judged(name_of(crate, edit), crate, self.edits[edit], status, lines)
        if not FOR_ANOTHER.search(line) or len(self.edits) == 1:
            return is_refused, line
        alone = Round(self.is_apart)
        alone.edits[edit] = self.edits[edit]
        return alone.judged(module, crate, kept)[0]


def name_of(crate, edit):
    return f"{crate.name}/{os.path.basename(edit)}"


def one_judged(name, crate, functions, status, lines):
    """The result of a check for the mutation that changed these functions."""
    of_these = "|".join(map(re.escape, functions))
    refused = [line for line in lines if re.match(rf"fn {crate.name}::(\S+::)?({of_these})(::\S+)?: (not proved|no proof)", line)]
    counts = COUNTS.match(lines[-1])
    if status == 1 and refused and counts and int(counts[2]) < int(counts[1]):
        return True, f"{name}: refused, as it must be: {refused[0][:160]}"
    if counts:
        return False, f"{name}: NOT REFUSED: {', '.join(functions)} is still proved"
    return False, "\n".join([f"{name}: NOT TRIED: its check ended with status {status}:", *lines[-8:]])


def tried(module, crate, edits):
    """Tries a crate's mutations round by round, each reusing what earlier rounds proved of the crate, and returns which are refused."""
    are_refused = []
    with tempfile.TemporaryDirectory() as kept:
        for it in rounds_of(crate, edits):
            for is_refused, line in it.judged(module, crate, kept):
                print(line, flush=True)
                are_refused.append(is_refused)
    return are_refused

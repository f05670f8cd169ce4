"""Which functions of a crate were edited in their bodies alone, for tools/prove --edited."""
import glob
import os
import re
import subprocess

HUNK = re.compile(r"@@ -(\d+)(?:,(\d+))? \+(\d+)(?:,(\d+))? @@")
FUNCTION = re.compile(r"( *)(?:pub(?:\(crate\))? )?(?:const )?fn (\w+)")
TRAIT = re.compile(r"(?:pub(?:\(crate\))? )?trait (\w+)")
WORD = re.compile(r"'?\w+|&")
CLAUSES = ("requires", "ensures", "ghost")
# What a crate has beside its sources, and no proof of it reads.
BESIDE = ("must-fail", "wrong-bodies", "stdin", "args", "stdout")


def run(*words):
    return subprocess.run(words, check=True, stdout=subprocess.PIPE, text=True).stdout


def is_said_alone(line):
    """Whether the line is empty or a comment."""
    return not line.strip() or line.strip().startswith("//")


class Function:
    """A function, as a check calls it below its module, with the first and the last line of its body."""

    def __init__(self, name, first, last):
        self.name, self.first, self.last = name, first, last


def past_brackets(text):
    """Where the angle brackets end with which a text begins; its start if it begins with none."""
    depth = 0
    for at, character in enumerate(text):
        depth += (character == "<") - (character == ">")
        if depth == 0:
            return at + (character == ">")
    return 0


def words_of(text):
    """The words of a type or a trait, without lifetimes; of a path the last."""
    return [it for it in WORD.findall(re.sub(r"\w+::", "", text)) if it[0] != "'"]


def joined(words, own):
    """Words in one, without an impl's own parameters."""
    return "".join("Ref" if it == "&" else it[0].upper() + it[1:] for it in words if it not in own)


def parameters_in(text):
    """The names of an impl's own parameters, which stand before their bounds."""
    while (without := re.sub(r"<[^<>]*>", "", text)) != text:
        text = without
    return {it.split(":")[0].strip() for it in text.split(",")}


def impl_of(line):
    """What a check calls an `impl`: RemarkDisplay where it is of a trait (Drop is not named), else Text+LabelForm."""
    head = line.removeprefix("impl").rstrip("{} ")
    at = past_brackets(head)
    own = parameters_in(head[1:at - 1])
    trait, _, of = head[at:].strip().rpartition(" for ")
    name, *arguments = words_of(of)
    if trait and trait != "Drop":
        return (joined([name, *arguments], own) or "Any") + joined(words_of(trait), own)
    return name if own.issuperset(arguments) else "+".join([name, *arguments])


def is_head_over(lines, at, indent):
    """Whether a line ends what stands before a function's body, or a function that has none."""
    line = lines[at]
    follows = lines[at + 1].lstrip() if at + 1 < len(lines) else ""
    if line == f"{indent}{{" or line.endswith(";"):
        return True
    return line.endswith("{") and not follows.startswith(CLAUSES) and not line.lstrip().startswith(CLAUSES)


def functions_in(lines):
    """The functions of a file that `rt fmt` laid out: a body ends with a brace under the first word."""
    found, impl = [], None
    for at, line in enumerate(lines):
        if line.startswith("impl"):
            impl = impl_of(line)
        elif trait := TRAIT.match(line):
            impl = trait[1]
        elif line.startswith("}"):
            impl = None
        begins = FUNCTION.match(line)
        if not begins:
            continue
        # The brace stands alone behind a contract. Without one it ends the line of the parameters' last bracket.
        head = next((n for n in range(at, len(lines)) if is_head_over(lines, n, begins[1])), None)
        shut = next((n for n in range(at, len(lines)) if lines[n] == f"{begins[1]}}}"), None)
        if head is not None and shut is not None and lines[head].endswith("{") and head < shut:
            found.append(Function("::".join(it for it in (impl, begins[2]) if it), head + 1, shut - 1))
    return found


def functions_of(file):
    with open(file, encoding="utf-8") as text:
        return functions_in(text.read().splitlines())


def module_of(crate, file):
    """The path of a file's module below the crate, empty for the root."""
    return re.sub(r"(^|/)(mod|lib|main)$", "", os.path.relpath(file, f"{crate}/src")[:-3]).replace("/", "::")


def edited_functions(crate):
    """The functions whose bodies hold all that git calls changed in the crate; None where something else changed."""
    paths = set()
    names = [it.name for file in glob.glob(f"{crate}/src/**/*.rt", recursive=True) for it in functions_of(file)]
    told = run("git", "status", "--porcelain", "--untracked-files=all", "--", crate).splitlines()
    for line in told:
        file = line[3:]
        if os.path.relpath(file, crate).split("/")[0] in BESIDE:
            continue
        if line[:2] not in (" M", "M ", "MM") or not re.match(r"src/.*\.rt$", os.path.relpath(file, crate)):
            return None
        functions = functions_of(file)
        for row in run("git", "diff", "-U0", "HEAD", "--", file).splitlines():
            if hunk := HUNK.match(row):
                first, count = int(hunk[3]) - 1, int(hunk[4] or 1)
                # Where lines were only taken out, the one before them tells where.
                last = first + max(count, 1) - 1
                around = next((it for it in functions if it.first <= first and last <= it.last), None)
            elif row[:1] in "+-" and row[:3] not in ("+++", "---") and not is_said_alone(row[1:]):
                if around is None:
                    return None
                # The end of a name will do where one function alone has it: a type may lie in another module.
                module = module_of(crate, file) if names.count(around.name) > 1 else ""
                paths.add("::".join(it for it in (module, around.name) if it))
    return sorted(paths)

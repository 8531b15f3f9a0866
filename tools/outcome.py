# What a check that did not pass says, told apart by its first error: `fact` (a fact fails), `shape` (the proof no longer fits the code),
# `form` (not even well-formed). For tools/mutants.
import re

# a proof that names what the code no longer has, or gives one thing where the code asks for another kind of thing
SHAPE = r"has no field `|has no `.*can be named|dimension \(.*\) is expected"
# refused before the prover (`error[..]`), or the text of a definition is wrong in itself
FORM = r": error\[|(?:^|/)specs/\S+: error"
# said of what only rests on something that was refused: the cause stands elsewhere
AFTER = r"was not admitted \("


# the class, and where or why: by the first error that is not the outcome of another one
def judged(said, status):
    if status is None:
        return "form", "timeout"
    if status == 0:
        return "SURVIVED", ""
    if status != 1:
        return "form", "could not tell" if status == 3 else f"rt ended with {status}"
    # what is said of one place: a line, and those below it that are indented
    entries = re.findall(r"^\S.*(?:\n[ \t].*)*", said, re.M)
    errors = [e for e in entries if re.search(r": error\b|it is not proved", e.split("\n")[0]) and not re.search(AFTER, e)]
    first = errors[0] if errors else ""
    where = re.match(r"(?:note: )?(?:\./)?(\S+?):\d+", first)
    where = where.group(1) if where else ""
    if "logic=not-proved" not in said or re.search(FORM, first.split("\n")[0]):
        return "form", where
    return ("shape" if not first or re.search(SHAPE, first) else "fact"), where

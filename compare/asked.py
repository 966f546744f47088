"""All questions, each with its weight, and as many as wanted at random; and which entry points nobody asks."""
import glob
import os
import re

import parts
import questions

RANDOM = questions.RANDOM + parts.RANDOM
CRATES = os.path.join(os.path.dirname(os.path.abspath(__file__)), "../crates")
# Inner functions that answer every input all the same: their caller only names their refusal.
ASKED_TOO = ["number_text::read_decimal", "number_text::read_i32", "number_text::read_u32"]


def random_questions(count, seed):
    m = questions.Maker(seed)
    makers = [q for weight, q in RANDOM for _ in range(weight)]
    for _ in range(count):
        yield m.r.choice(makers)(m)


def entry_points():
    """As CRATE::NAME: every public function of a crate's src/lib.rt that no comment line `// Inner:` marks.

    A crate with modules lists its entry points first, then that line, then the inner functions. The C face hands over what
    these answer, and is run by bench/ and examples/.
    """
    for path in sorted(glob.glob(os.path.join(CRATES, "*/src/lib.rt"))):
        crate = path.split(os.sep)[-3]
        if crate == "c_face":
            continue
        text = open(path, encoding="utf-8").read()
        for one, several in re.findall(r"^pub use \w+::(?:(\w+)|\{([^{}]*)\});", text.split("// Inner:")[0], re.M):
            for name in re.findall(r"\w+", one or several):
                if name[0].islower():
                    yield crate + "::" + name
        for comment, name in re.findall(r"((?:^//.*\n)*)(?:^#\[.*\n)*^pub fn (\w+)", text, re.M):
            if "// Inner:" not in comment:
                yield crate + "::" + name


def not_asked():
    """A question bears the entry point's name, and its crate's too where two crates have the name."""
    m = questions.Maker(0)
    names = {make(m).name for _, make in RANDOM}
    return [e for e in [*entry_points(), *ASKED_TOO] if e not in names and e.split("::")[1] not in names]

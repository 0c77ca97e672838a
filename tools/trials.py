"""A copy of the repository in which `rt try` finds the crates of tests beside the others. Run as a program, it is
`rt try` without its search for names that a check would refuse, which takes as long again."""
import pathlib
import shutil
import sys

sys.dont_write_bytecode = True
import kit

ROOT = pathlib.Path(__file__).resolve().parent.parent
# The folders of crates: those that the gate proves, and tests.
CRATES, TESTS = ROOT / "crates", ROOT / "tests"
# The files that say which libraries a crate uses.
LISTS = [ROOT / "crates.txt", TESTS / "libraries.txt"]


def names_in(folder):
    """The names of the crates of a folder of crates."""
    return sorted(it.name for it in folder.iterdir() if (it / "src").is_dir())


def folder_of(name):
    """The folder of a crate, of tests or of the others."""
    for it in (TESTS, CRATES):
        if (it / name / "src").is_dir():
            return it / name
    sys.exit(f"no crate is named {name}")


def uses():
    """The libraries that each crate uses, of the repository's and of the kit's."""
    lines = [it.partition(":") for file in LISTS for it in file.read_text().splitlines() if not it.startswith("#")]
    return {head.split()[0]: set(used.split()) for head, _, used in lines if head}


def copied_name(src, at):
    """The name of a file of tests in the copy: the gate proves each file that ends in .rt, so those of tests don't."""
    return at.with_suffix(".rt") if src.suffix == ".rs" else at


def own_tests(crate):
    """The files of a program's module `tests`, which are in a folder of tests with the name of the program."""
    folder = TESTS / crate.name
    return sorted(folder.rglob("*.rs")) if (folder / "tests.rs").is_file() else []


def copy_crate(crate, to):
    """Copies what `rt try` reads of a crate, and its data beside it, where the program looks for it. A program has its
    module `tests` in the copy alone, since the gate would prove it."""
    for part in ("src", "specs", "proofs"):
        for src in sorted((crate / part).rglob("*")):
            at = copied_name(src, to / src.relative_to(crate))
            if src.is_file():
                at.parent.mkdir(parents=True, exist_ok=True)
                shutil.copyfile(src, at)
    if (crate / "data").is_dir():
        shutil.copytree(crate / "data", to, dirs_exist_ok=True)
    own = own_tests(crate)
    for src in own:
        at = copied_name(src, to / "src" / src.relative_to(TESTS / crate.name))
        at.parent.mkdir(parents=True, exist_ok=True)
        shutil.copyfile(src, at)
    if own:
        with open(to / "src/main.rt", "a") as root:
            root.write("\n#[cfg(test)]\nmod tests;\n")


def copy_repository(room):
    """Makes the copy in an empty folder. Each crate is in `crates` there."""
    (room / "crates.txt").write_text("".join(it.read_text() for it in LISTS))
    (room / ".git").mkdir()
    for folder in (CRATES, TESTS):
        for name in names_in(folder):
            copy_crate(folder / name, room / "crates" / name)


def add_program(room, name, used):
    """Adds a program to the copy that does nothing and uses these libraries. Static ones are as others from then on."""
    (room / "crates" / name / "src").mkdir(parents=True)
    (room / "crates" / name / "src/main.rt").write_text("fn main(_rt: HostRuntime) {}\n")
    lists = (room / "crates.txt").read_text().replace(" staticlib:", ":")
    (room / "crates.txt").write_text(f"{lists}{name}: {' '.join(used)}\n")


def main(words):
    """Does what `rt try` does with these words, by the kit's own module, but for the search for names."""
    rtlib = kit.load()
    # (the search is a check by this command, of which `rt try` wants nothing but what it says of names)
    rtlib.RATTLE = "true"
    return rtlib.main("try", *words)


if __name__ == "__main__":
    sys.exit(main(sys.argv[1:]))

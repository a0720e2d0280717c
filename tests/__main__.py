"""Shared. Runs one test by its name.

usage: python3 tests                                                   tells all tests, and when each is run
       python3 tests NAME [--rq RQ] [--look RQLOOK] [--write RQLOG] [--folder FOLDER] [WORD ..]
       python3 tests NAME --help
The programs are those of this clone, if no others are named; each is the built program itself, and not the script at the top. With
FOLDER what is made stays there. A test has parts, or words of its own. It prints a line for each thing that is not as it must be, and
at last `N passed, M failed`; the status is 0 if nothing failed.
"""
from __future__ import annotations
import argparse, ast, glob, importlib, os, sys, tempfile
from types import ModuleType

# A run leaves nothing in the clone.
sys.dont_write_bytecode = True
HERE = os.path.dirname(os.path.abspath(__file__))
FOLDERS = ("programs", "faults", "others", "many", "live", "serve", "lint", "tools")
sys.path[:0] = [HERE, *(os.path.join(HERE, it) for it in FOLDERS)]
import trying  # noqa: E402

# Tests of what stands in the clone ask for the programs by themselves, if they need one.
OF_PROGRAMS = ("", "programs", "faults", "others", "serve")


def files() -> dict[str, str]:
    """The files of this folder that are a test or share something with one, by name."""
    found = glob.glob(os.path.join(HERE, "*.py")) + [path for it in FOLDERS for path in glob.glob(os.path.join(HERE, it, "*.py"))]
    return {os.path.basename(path)[:-3]: path for path in found if path != os.path.abspath(__file__)}


def first_line(path: str) -> str:
    with open(path, encoding="utf-8") as file:
        return (ast.get_docstring(ast.parse(file.read())) or "").split("\n\n", 1)[0].replace("\n", " ")


def tests() -> dict[str, str]:
    return {name: path for name, path in sorted(files().items()) if not first_line(path).startswith("Shared.")}


def set_programs(given: argparse.Namespace, path: str) -> None:
    """Those that are named, or those of this clone, if the test is of programs."""
    folder = os.path.relpath(os.path.dirname(path), HERE)
    is_of_programs = folder.replace(".", "") in OF_PROGRAMS
    for name, program in (("rq", given.rq), ("rqlook", given.look), ("rqlog", given.write)):
        found = os.path.abspath(program) if program else trying.program_of(name) if is_of_programs else ""
        if is_of_programs and not found:
            sys.exit(f"no {name} is made of these sources: ./{name} --prove builds it")
        setattr(trying, name.upper(), found)


def takes(test: ModuleType, line: argparse.ArgumentParser) -> None:
    """The words of its own that a test takes, or its parts."""
    if hasattr(test, "takes"):
        test.takes(line)
    elif hasattr(test, "PARTS"):
        line.add_argument("parts", nargs="*", metavar="PART", help=", ".join(it.__name__ for it in test.PARTS))


def main() -> int:
    words = sys.argv[1:]
    name, known = words[0] if words else "", tests()
    if name not in known:
        print(__doc__.strip(), "", *(f"{it:12}{first_line(path)}" for it, path in known.items()), sep="\n")
        return 0 if name in ("", "--help", "-h") else 2
    programs = argparse.ArgumentParser(add_help=False, allow_abbrev=False)
    for it in ("--rq", "--look", "--write", "--folder"):
        programs.add_argument(it)
    if not {"--help", "-h"} & set(words):
        set_programs(programs.parse_known_args(words[1:])[0], known[name])
    test = importlib.import_module(name)
    line = argparse.ArgumentParser(prog=f"python3 tests {name}", parents=[programs], description=test.__doc__, allow_abbrev=False,
                                   formatter_class=argparse.RawDescriptionHelpFormatter)
    takes(test, line)
    options = line.parse_intermixed_args(words[1:])
    with tempfile.TemporaryDirectory(prefix="rq-test-") as folder:
        options.folder = os.path.abspath(options.folder or folder)
        os.makedirs(options.folder, exist_ok=True)
        if hasattr(test, "main"):
            status = test.main(options)
        else:
            status = None
            trying.run_parts([it for it in test.PARTS if not options.parts or it.__name__ in options.parts], hasattr(test, "IN_ONE_FOLDER"))
        os.chdir(trying.TOP)
    return trying.counted() if status is None else status


if __name__ == "__main__":
    sys.exit(main())

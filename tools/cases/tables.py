"""What the built programs are tried on by tools/check-documents, and what they have to do: each module in the folder of a program may have
CASES of it, and FILES that they name.

Expected values come from the definitions of the crates, arithmetic or a kernel's headers, and never from the program's output.
"""

import importlib
import pathlib

from running import Case

FOLDER = pathlib.Path(__file__).parent
MODULES = {program: {it.stem: importlib.import_module(f"cases.{program}.{it.stem}") for it in sorted((FOLDER / program).glob("*.py"))}
           for program in ("seccompc", "seccomptool")}
FILES = [it for modules in MODULES.values() for module in modules.values() for it in getattr(module, "FILES", {}).items()]


def cases_of(program, name=""):
    """Returns the cases of a program, or those of one of its modules."""
    return [Case(*it) for module, found in MODULES[program].items() if name in ("", module) for it in getattr(found, "CASES", ())]

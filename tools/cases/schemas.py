"""Whether the schemas of docs/ say what the built programs do.

Each policy that a case or an example has is valid by docs/policy.schema.json exactly if `check` finds no error of its shape. The other
errors JSON Schema can't say; and of a text that is no JSON, repeats a key, or has a whole number with a fraction, an exponent or as -0,
which JSON Schema takes for the same number, nothing is asked. Each JSON answer of the cases is valid by docs/answers.schema.json, and none
with a key more; and there is an answer of each kind. Prints how many of both were tried. Without Python's `jsonschema` (Debian:
python3-jsonschema) nothing is compared, which is said.
"""

import json
import re

from cases import tables
from results import TOP
from running import Failing

# The codes of errors that are of no shape, and of texts of which nothing is asked.
UNSHAPED = {"unknown-call", "identical-actions", "program-too-large"}
UNASKED = {"not-json", "repeated-key", "not-a-profile", "not-a-program", "more-errors"}

# So much is shown of a policy or an answer; and no longer texts are tried, which are of many entries, but for examples.
SHOWN, LONGEST = 200, 2000


def has_loose_numbers(text):
    """Returns whether a whole number of a text is written with a fraction, with an exponent or as -0."""
    loose = []
    json.loads(text, parse_float=lambda it: loose.append(float(it).is_integer()), parse_int=lambda it: loose.append(it == "-0"))
    return any(loose)


def is_profile(value):
    """Returns whether a value is a profile, or a container's configuration with one."""
    try:
        own = value if "defaultAction" in value else value["linux"]["seccomp"]
        return isinstance(own["defaultAction"], str)
    except (TypeError, KeyError):
        return False


def policies():
    """Returns the texts of cases and examples that are JSON and no profile, each with its value, the shortest first."""
    given = [case.given for program in tables.MODULES for case in tables.cases_of(program) if not isinstance(case.given, Failing)]
    examples, found = [path.read_bytes() for path in sorted((TOP / "examples").glob("*-policy.json"))], {}
    for it in [*given, *(it for _, it in tables.FILES), *examples]:
        try:
            text = it if isinstance(it, str) else it.decode() if isinstance(it, bytes) else json.dumps(it)
            if len(text) > LONGEST and it not in examples:
                continue
            if not is_profile(json.loads(text)) and not has_loose_numbers(text):
                found[text] = json.loads(text)
        except (ValueError, RecursionError):
            pass
    return sorted(found.items(), key=lambda it: len(it[0]))


def compare_policies(results, run, name, validator):
    """Compares what the schema says of each policy with the errors that `check` finds."""
    tried = accepted = 0
    for text, value in policies():
        found = json.loads(run("check --json -", text)[1])["diagnostics"]
        codes = {it["code"] for it in found if it["severity"] == "error"}
        if not codes & UNASKED:
            tried, accepted = tried + 1, accepted + (not codes)
            results.compare(f"{name} on {text[:SHOWN]}", (not codes - UNSHAPED,), (validator.is_valid(value),))
    print(f"{name}: {tried} policies tried, {accepted} of them accepted")


def compare_answers(results, _, name, validator):
    """Compares that the schema has each answer, and has answers of each kind."""
    asked = [it for it in tables.cases_of("seccomptool") if re.search(" --(json|format[ =]json)", it.words)]
    texts = {it.output for it in asked if it.output and not it.output.endswith("..")}
    answers = [json.loads(it) for it in sorted(texts, key=len)]
    for value in answers:
        judged = validator.is_valid(value), validator.is_valid({**value, "other": 1})
        results.compare(f"{name} on {json.dumps(value)[:SHOWN]}, and with a key more", (True, False), judged)
    for kind in (it["$ref"] for it in validator.schema["oneOf"]):
        judge = validator.evolve(schema={"$defs": validator.schema["$defs"], "$ref": kind})
        results.compare(f"{name}: answers of the kind {kind}", (True,), (any(map(judge.is_valid, answers)),))
    print(f"{name}: {len(answers)} answers tried")


def compare_schemas(results, run):
    """Compares both schemas with the program, which a function runs with a text."""
    try:
        from jsonschema import Draft202012Validator as Validator
    except ImportError:
        print("Python's jsonschema isn't installed, so the schemas of docs/ are compared with no policy and no answer")
        return
    for name, compare in (("docs/policy.schema.json", compare_policies), ("docs/answers.schema.json", compare_answers)):
        schema = json.loads((TOP / name).read_text(encoding="utf-8"))
        Validator.check_schema(schema)
        compare(results, run, name, Validator(schema))

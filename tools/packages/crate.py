"""The Rust crate of the package, tried if cargo is installed; a part of tools/check-package."""

import html
import pathlib
import re
import shutil
import subprocess

from commands import ENVIRONMENT, TOP, run
from pages.console_blocks import blocks_of

# The beginning of a project; what it depends on if it runs the tests of the crate, and those that want one of Debian's crates.
PROJECT = '[package]\nname = "fresh"\nversion = "0.1.0"\nedition = "2021"\n'
DEPENDENCIES = '[dependencies]\nseccompiler = {{ version = "0.5.0", features = {} }}\n'
PAGE = "share/doc/seccompiler/docs/SWITCHING.md"
CRATE = "share/seccompiler/rust/seccompiler"
REGISTRY = pathlib.Path("/usr/share/cargo/registry")
DEBIAN = f'[source.crates-io]\nreplace-with = "debian"\n[source.debian]\ndirectory = "{REGISTRY}"\n'
WANTING = {"libc": ("libc", 'libc = "0.2"\n'), "deserialize": ("serde", 'serde = "1"\n')}
IN_KERNEL = {"kernel", "threads"}
# What the front page of the crate's documentation says of hosts, and the terms that it explains.
HOSTS = r"The crate runs on Linux on (\w+) and (\w+), [^.]*\. Hosts of (\w+) are missing"
TERMS = ["condition", "rule", "filter", "match action", "mismatch action", "BPF program", "installs"]


def cargo_environment():
    """Returns the environment for cargo, in which the kit isn't found, or None if cargo isn't installed."""
    if shutil.which("rustc") is None:
        return None
    top = pathlib.Path(subprocess.check_output(["rustc", "--print", "sysroot"], text=True).strip())
    path = f"{top / 'bin'}:{ENVIRONMENT['PATH']}"
    return {"PATH": path} if shutil.which("cargo", path=path) else None


def texts_of(page, kind, package="PACKAGE"):
    """Returns the blocks of a kind of a page, with the package's folder."""
    return ["\n".join([*lines, ""]).replace("PACKAGE", str(package)) for _, lines in blocks_of(page, kind)]


def check_page(results, unpacked, folder, why, environment):
    """Builds the page's new project and program, and the functions of both READMEs, and runs the program if the kernel takes filters."""
    place, beside = folder / "new", (unpacked / PAGE).parent.parent
    (place / "src").mkdir(parents=True)
    (place / "Cargo.toml").write_text(PROJECT + texts_of(unpacked / PAGE, "toml", unpacked)[1])
    (place / "src/main.rs").write_text(texts_of(unpacked / PAGE, "rs")[0])
    functions = [texts_of(it, "rs")[0] for it in (TOP / "README.md", unpacked / CRATE / "README.md")]
    (place / "src/lib.rs").write_text("#![allow(dead_code)]\n{}mod of_crate {{\n{}}}\n".format(*functions))
    words = ["cargo", "run" if why is None else "build", "--offline", "--quiet", "--manifest-path", place / "Cargo.toml"]
    wanted = (beside / "examples/cat-policy.json").read_text() if why is None else ""
    results.compare("SWITCHING.md: the new project", (wanted, "", 0), run(words, beside, **environment))


def write_project(unpacked, place):
    """Writes a project of cargo that takes the crate from the package, and runs those of its tests that can be run."""
    there = {test: it for test, it in WANTING.items() if any(REGISTRY.glob(f"{it[0]}-[0-9]*"))}
    (place / "src").mkdir(parents=True)
    (place / ".cargo").mkdir()
    (place / "src/lib.rs").write_text("")
    features = '["json", "serde"]' if "deserialize" in there else '["json"]'
    patch, _ = texts_of(unpacked / PAGE, "toml", unpacked)
    crates = "".join(line for _, line in there.values())
    (place / "Cargo.toml").write_text(PROJECT + DEPENDENCIES.format(features) + crates + patch)
    if there:
        (place / ".cargo/config.toml").write_text(DEBIAN)
    shutil.copytree(unpacked / CRATE / "tests", place / "tests")
    for test in WANTING.keys() - there.keys():
        print(f"Debian's crate {WANTING[test][0]} isn't installed, so the test {test} of the Rust crate isn't run")
        (place / f"tests/{test}.rs").unlink()


def check_alone(results, unpacked, folder, environment, for_aarch64):
    """Builds the crate alone: with a library that is named, and without one, when the crate says what to do and only what links
    fails."""
    alone = folder / "alone"
    shutil.copytree(unpacked / CRATE, alone)
    # At the top of a project the crate wants all that any of its features takes.
    manifest = re.sub(r'^(serde|libc) = [{"].*\n', "", (alone / "Cargo.toml").read_text(), flags=re.M)
    manifest = manifest.replace('"dep:serde"', "")
    (alone / "Cargo.toml").write_text(manifest)
    named = {"SECCOMPILER_LIB": str(unpacked / "lib")}
    out, err, status = run(["cargo", "build", "--offline"], alone, **environment, **named)
    results.compare(f"the crate with a library that is named: {err[-500:]}", 0, status)
    for more in ({}, {"SECCOMPILER_LIB": str(alone)}):
        for command, wanted in (("check", 0), ("doc", 0), ("build", 101)):
            out, err, status = run(["cargo", command, "--offline", "--features", "json"], alone, **environment, **more)
            found = "isn't found" in err and "SECCOMPILER_LIB" in err and "rt lib" in err, status
            results.compare(f"cargo {command} without a library: {err[-500:]}", (True, wanted), found)
    check_front_page(results, alone, {"x86_64": unpacked, "aarch64": for_aarch64})


def check_front_page(results, alone, packages):
    """Compares the hosts that the front page of the documentation names with those for which the build script links the library of
    a package, and looks for the terms. It links none for another host."""
    path = alone / "target/doc/seccompiler/index.html"
    page = path.read_text(encoding="utf-8") if path.exists() else ""
    text = " ".join(html.unescape(re.sub(r"<[^>]*>", "", page)).split())
    script = next((alone / "target/debug/build").glob("seccompiler-*/build-script-build"), alone / "none")
    links = {}
    there = {host: it for host, it in packages.items() if it is not None}
    for host in ("x86_64", "aarch64", "riscv64"):
        for other, package in there.items():
            more = {"SECCOMPILER_LIB": str(package / "lib"), "CARGO_CFG_TARGET_OS": "linux", "CARGO_CFG_TARGET_ARCH": host}
            out, _, status = run([script], alone, **more)
            links[host, other] = status, "rustc-link-search" in out
    hosts = re.search(HOSTS, text)
    said = {(host, it): (0, place < 2 and host == it) for place, host in enumerate(hosts.groups()) for it in there} if hosts else "none"
    results.compare("the hosts that the crate's front page names", said, links)
    explained = re.findall(r"<em>([^<]*)</em>", page)
    results.compare("the terms that the crate's front page explains", TERMS, explained)


def check_style(results, place, environment):
    """Looks at the crate, its tests and the jailer over it by rustfmt and clippy, if they are installed."""
    top = TOP / "rust/seccompiler"
    sources = [it for part in ("*.rs", "src/*.rs", "tests/*.rs") for it in top.glob(part)]
    sources += (TOP / "examples/jail-rs/src").glob("*.rs")
    if shutil.which("rustfmt", path=environment["PATH"]):
        found = run(["rustfmt", "--check", "--edition", "2021", *sources], place, **environment)
        results.compare("rustfmt", ("", "", 0), found)
    if shutil.which("cargo-clippy", path=environment["PATH"]):
        for words in (["-p", "seccompiler"], ["--all-targets"]):
            words = ["cargo", "clippy", "--offline", "--quiet", *words, "--", "-D", "warnings"]
            results.compare(" ".join(words), ("", "", 0), run(words, place, **environment))


def check_old(results, unpacked, folder, environment):
    """Lets Debian's own rustc compile the crate, if it is installed: that of Debian 12 is the oldest that it is for."""
    words = ["--edition", "2021", "--crate-type", "lib", "--crate-name", "seccompiler", "--cfg", 'feature="json"', "--emit=metadata"]
    if not pathlib.Path("/usr/bin/rustc").exists():
        print("Debian's rustc isn't installed, so the crate isn't compiled by it")
        return
    for words in ([*words, "src/lib.rs"], ["--edition", "2021", "--emit=metadata", "build.rs"]):
        found = run(["/usr/bin/rustc", "-D", "warnings", *words, "--out-dir", folder], unpacked / CRATE)
        results.compare(f"Debian's rustc {words[-1]}", ("", "", 0), found)


def run_tests(results, place, environment, *words, but=()):
    """Runs each test of a project, but some."""
    for test in sorted(it.stem for it in (place / "tests").glob("*.rs") if it.stem not in but):
        out, err, status = run(["cargo", "test", "--offline", *words, "--test", test], place, **environment)
        passed = re.search(r"^test result: ok\. [1-9]\d* passed; 0 failed; 0 ignored", out, re.M) is not None
        results.compare(f"the crate's test {test}: {err[-500:]}{out[-1500:]}", (True, 0), (passed, status))


def check_crate(results, unpacked, folder, why, for_aarch64):
    """Runs the tests of the Rust crate over the package."""
    environment = cargo_environment()
    if environment is None:
        print("cargo isn't installed, so nothing is built over the Rust crate")
        return
    place, more = folder / "fresh", {**environment, "RUSTFLAGS": "-D warnings", "RUST_BACKTRACE": "0"}
    write_project(unpacked, place)
    run_tests(results, place, more, but=IN_KERNEL if why is not None else ())
    check_page(results, unpacked, folder, why, more)
    check_alone(results, unpacked, folder, more, for_aarch64)
    check_old(results, unpacked, folder, more)
    check_style(results, place, more)

"""Projects of CMake and meson over the package; a part of tools/check-package."""

from commands import is_there, run

CMAKE = """cmake_minimum_required(VERSION 3.13)
project(fresh C)
find_package(seccompiler {version} REQUIRED)
add_executable(fresh program.c)
target_link_libraries(fresh seccompiler::{target})
"""
MESON = """project('fresh', 'c', default_options: ['werror=true', 'c_std=gnu11'])
executable('fresh', 'program.c', dependencies: dependency('seccompiler', version: '>= 0.6'), build_rpath: '{library}')
"""


NO_PROJECT = "no project of {} is built over the package"


def try_project(results, what, place, steps, shown, **more):
    """Builds a project by these commands and runs its program, which has to print what the page shows."""
    for words in steps:
        out, err, status = run(words, place, **more)
        if not results.compare(f"{what}: {words[0]}: {out[-800:]}{err[-500:]}", 0, status):
            return
    results.compare(what, (shown, "", 0), run([place / "out/fresh"], place))


def check_building(results, unpacked, folder, text, shown):
    """Builds a program of docs/C.md, which prints what is shown, by CMake over each target, and by meson."""
    places = {}
    for name in ("cmake-seccompiler", "cmake-static", "cmake-old", "meson"):
        places[name] = folder / name
        places[name].mkdir()
        (places[name] / "program.c").write_text(text)
    if is_there(NO_PROJECT.format("CMake"), "cmake"):
        for target in ("seccompiler", "static"):
            place = places[f"cmake-{target}"]
            (place / "CMakeLists.txt").write_text(CMAKE.format(version="0.6", target=target))
            steps = ["cmake", "-B", "out", f"-DCMAKE_PREFIX_PATH={unpacked}"], ["cmake", "--build", "out"]
            try_project(results, f"find_package of CMake: seccompiler::{target}", place, steps, shown)
        for version in ("0.5", "1.0", "0.6.99"):
            (places["cmake-old"] / "CMakeLists.txt").write_text(CMAKE.format(version=version, target="static"))
            out, err, status = run(["cmake", "-B", "out", f"-DCMAKE_PREFIX_PATH={unpacked}"], places["cmake-old"])
            found = status != 0, "compatible with requested version" in err
            results.compare(f"find_package of CMake: version {version}", (True, True), found)
    if is_there(NO_PROJECT.format("meson"), "meson", "ninja", "pkg-config"):
        place = places["meson"]
        (place / "meson.build").write_text(MESON.format(library=unpacked / "lib"))
        steps = ["meson", "setup", "out"], ["ninja", "-C", "out"]
        try_project(results, "meson", place, steps, shown, PKG_CONFIG_PATH=str(unpacked / "lib/pkgconfig"))

"""Builds programs that measure, each in a repository of its own, beside copies of the crates that it stands on.

The gate reads the crates of crates.txt alone, and refuses other sources of its language. So the sources of such a
program stand in bench/, in files of another kind. `rt run` proves it, and takes over what was proved of the crates
here.
"""
import os
import shutil
import subprocess

ROOT = os.path.dirname(os.path.dirname(os.path.abspath(__file__)))


def listed_crates():
    """Each crate of crates.txt, and the names behind it."""
    with open(f"{ROOT}/crates.txt", encoding="utf-8") as file:
        lines = [line.split("#")[0].partition(":") for line in file]
    return {name.split()[0]: below.split() for name, _, below in lines if name.strip()}


def all_below(names, listed, found=()):
    """What was found, then what these names stand on and they, lowest first: libraries of the toolchain among them."""
    for name in names:
        if name not in found:
            found = [*all_below(listed.get(name, []), listed, found), name]
    return list(found)


def copy_crates(folder, program, needed, listed):
    """Copies crates, with a line for each and one for the program above them."""
    crates = [name for name in needed if name in listed]
    for name in crates:
        shutil.copytree(f"{ROOT}/crates/{name}", f"{folder}/crates/{name}", ignore=shutil.ignore_patterns("out"))
    lines = [f"{name}: {' '.join(listed[name])}\n" for name in crates]
    with open(f"{folder}/crates.txt", "w", encoding="utf-8") as file:
        file.writelines([*lines, f"{program}: {' '.join(needed)}\n"])
    shutil.copy(f"{ROOT}/HANDLES", folder)


def build(folder, program, sources, above):
    """The path of a program, built in this folder of the texts of its sources, by their names, above these crates."""
    listed = listed_crates()
    copy_crates(folder, program, all_below(above, listed), listed)
    crate = f"{folder}/crates/{program}"
    os.makedirs(f"{crate}/src")
    for name, text in sources.items():
        with open(f"{crate}/src/{name}.rt", "w", encoding="utf-8") as file:
            file.write(text)
    subprocess.run(["rt", "fmt"], cwd=crate, check=True, stdout=subprocess.DEVNULL)
    # What the program prints and how it ends, on no input and without words, doesn't matter here.
    streams = {"stdin": subprocess.DEVNULL, "stdout": subprocess.PIPE, "stderr": subprocess.STDOUT}
    ran = subprocess.run(["rt", "run"], cwd=crate, check=False, **streams)
    if not os.path.exists(f"{crate}/out/{program}"):
        raise SystemExit(ran.stdout.decode(errors="replace"))
    return f"{crate}/out/{program}"

"""What scripts share that ask the prover of one crate over the libraries that `rt ci` has left."""
import os
import shutil
import subprocess
import sys

import measure

CRATES = os.path.join(measure.TOP, "crates")
# The folders of wrong bodies, which nothing above a crate reads.
FOLDERS = "wrong-bodies", "must-fail"


def listed_crates():
    """The crates that crates.txt lists, each with its line there and the crates that it names."""
    with open(os.path.join(measure.TOP, "crates.txt")) as file:
        lines = [line.split("#")[0].strip() for line in file]
    return {line.split()[0].rstrip(":"): (line, line.partition(":")[2].split()) for line in lines if line}


def below(name, listed):
    """The repository's crates below a crate, each after those that it uses."""
    found = {}
    for dep in listed[name][1]:
        if dep in listed:
            found.update(dict.fromkeys([*below(dep, listed), dep]))
    return [*found]


def files_of(folder):
    """The files below a folder, in order."""
    return sorted(os.path.join(at, name) for at, _, names in os.walk(folder) for name in names)


def kit():
    """The folder of the toolchain."""
    return os.path.dirname(subprocess.run(["rt", "doc"], capture_output=True, text=True, check=True).stdout.strip())


def is_left(name):
    """Whether the library of a crate stands in its folder as the gate has left it: it is newer than all that it is made from."""
    folder = os.path.join(CRATES, name)
    library = os.path.join(folder, "out", "rlib", f"{name}.rlib")
    made = [path for part in ("src", "specs", "proofs") for path in files_of(os.path.join(folder, part))]
    return os.path.isdir(library) and all(os.path.getmtime(path) <= os.path.getmtime(library) for path in made)


def libraries(names, listed, room):
    """The folder of crates in which the libraries below these crates stand. Where `rt ci` has left them in the checkout, it is that one. Else
    `rt ci` gives them, in a copy: it keeps what the gate has passed, or proves it again."""
    wanted = dict.fromkeys(it for name in names for it in below(name, listed))
    if all(map(is_left, wanted)):
        return CRATES
    for name in wanted:
        shutil.copytree(os.path.join(CRATES, name), os.path.join(room, "crates", name), ignore=shutil.ignore_patterns("out", *FOLDERS))
    with open(os.path.join(room, "crates.txt"), "w") as file:
        file.writelines(f"{listed[name][0]}\n" for name in wanted)
    shutil.copy(os.path.join(measure.TOP, "HANDLES"), room)
    ran = subprocess.run(["rt", "ci"], cwd=room, stdout=subprocess.PIPE, stderr=subprocess.STDOUT, text=True, errors="replace")
    if ran.returncode:
        sys.exit(f"{ran.stdout}\nthe libraries below {' '.join(names)} are not proved: see to it that rt ci passes")
    return os.path.join(room, "crates")


def prover(verb, name, listed, home, toolchain):
    """The prover's command line for a crate over the libraries that stand in a folder of crates: its verb is check or build."""
    rlibs = os.path.join(toolchain, "rlibs")
    found = [os.path.join(toolchain, "bin", "rattle"), verb, "--crate-name", name, "src/lib.rt", "--links", f"{name}=", "--jobs", "1"]
    logic = os.path.join(toolchain, "rattle", "logic", "antt-project.json")
    found += ["--antt-project", logic, "--logic-built", os.path.join(toolchain, "logic_built")]
    at = {it: os.path.join(home, it, "out", "rlib") for it in below(name, listed)}
    found += [it for place in (rlibs, *at.values()) for it in ("-L", f"dependency={place}")]
    return found + [it for dep in ("std", *listed[name][1]) for it in ("--extern", f"{dep}={at.get(dep, rlibs)}/{dep}.rlib")]

"""What the scripts that call the prover by itself share: the toolchain's place, crates.txt, and how a crate is checked or built over the
libraries below it."""
import functools
import os
import shutil
import subprocess
import sys

ROOT = os.path.dirname(os.path.dirname(os.path.abspath(__file__)))
PARTS = ("src", "specs", "proofs")


@functools.cache
def home():
    rt = shutil.which("rt")
    if not rt:
        sys.exit("the toolchain's command rt isn't in PATH")
    return os.path.dirname(os.path.dirname(os.path.realpath(rt)))


def listed():
    """The crates of crates.txt in its order: whether each is a static library, and what it uses."""
    crates = {}
    with open(os.path.join(ROOT, "crates.txt"), encoding="utf-8") as lines:
        for line in lines:
            head, colon, uses = line.partition("#")[0].partition(":")
            if colon:
                name, *kind = head.split()
                crates[name] = ("staticlib" in kind, uses.split())
    return crates


CRATES = listed()


def folder(crate):
    return os.path.join(ROOT, "crates", crate)


def archived(name):
    """The static library whose archive is libNAME.a."""
    for crate in (name, name + "_c"):
        if CRATES.get(crate, (False,))[0]:
            return crate
    sys.exit(f"crates.txt has no static library {name}")


def below(crate):
    """The repository's libraries that it stands on, each after those that it uses."""
    found = {}
    for name in CRATES[crate][1]:
        if name in CRATES:
            found |= dict.fromkeys([*below(name), name])
    return list(found)


def rlib(crate):
    return os.path.join(folder(crate), "out/rlib", crate + ".rlib")


def words(crate, jobs=1):
    """What `rattle check` and `rattle build` of the crate are told, in a folder that has its src/, specs/ and proofs/."""
    is_static, uses = CRATES[crate]
    kit = home()
    told = ["--crate-name", crate, "src/main.rt" if os.path.isfile(os.path.join(folder(crate), "src/main.rt")) else "src/lib.rt"]
    for name in ["std", *uses]:
        told += ["--extern", f"{name}={rlib(name) if name in CRATES else f'{kit}/rlibs/{name}.rlib'}"]
    told += ["-L", f"dependency={kit}/rlibs"]
    for name in below(crate):
        told += ["-L", f"dependency={os.path.dirname(rlib(name))}"]
    told += ["--antt-project", f"{kit}/rattle/logic/antt-project.json", "--logic-built", f"{kit}/logic_built"]
    told += ["--jobs", str(jobs), "--links", crate + "="]
    return told + ["--crate-type", "staticlib"] * is_static


def rattle(words, cwd):
    """Runs the prover, and answers its status and all that it said."""
    run = subprocess.run([f"{home()}/bin/rattle", *words], cwd=cwd, stdin=subprocess.DEVNULL, stdout=subprocess.PIPE,
                         stderr=subprocess.STDOUT, text=True, errors="replace", check=False)
    return run.returncode, run.stdout


def is_of_sources(made, crates):
    """Whether the file or folder is there, and no source of the crates is younger."""
    if not os.path.exists(made):
        return False
    when = os.stat(made).st_mtime
    for name in crates:
        for part in PARTS:
            for at, _, files in os.walk(os.path.join(folder(name), part)):
                if any(os.stat(os.path.join(at, file)).st_mtime > when for file in files):
                    return False
    return True


def is_by_ci(crate):
    """Whether what stands below the crate is what `rt ci` proved of the sources as they are.

    It leaves the libraries so in a checkout that had none, and without the mark by which `rt lib` knows its own."""
    for name in below(crate):
        if os.path.exists(os.path.join(folder(name), "out/rlib/stamp")) or not os.path.exists(os.path.join(rlib(name), "format")):
            return False
        if not is_of_sources(rlib(name), [name]):
            return False
    return True


def ready(crates):
    """Has `rt lib` build what the crates stand on, but where `rt ci` just did. It does what isn't there or has changed."""
    wanted = {name for crate in crates if not is_by_ci(crate) for name in below(crate)}
    for name in [name for name in CRATES if name in wanted]:
        run = subprocess.run(["rt", "lib"], cwd=folder(name), stdout=subprocess.PIPE, stderr=subprocess.STDOUT, text=True, errors="replace", check=False)
        if run.returncode != 0:
            sys.exit(f"{run.stdout}{name}, which others stand on, is not built")


def cores():
    """How many checks run at a time: one for each processor and each two gigabytes."""
    with open("/proc/meminfo", encoding="utf-8") as file:
        free = next(int(line.split()[1]) for line in file if line.startswith("MemAvailable:"))
    return max(1, min(len(os.sched_getaffinity(0)), free // 2_000_000))

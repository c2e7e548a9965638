#!/usr/bin/env python3
"""kit.py follow LOG FOLDER   beside `rt ci`, whose output goes into LOG: FOLDER/CRATE for each crate as soon as rt says that it is proved, with its library in it (links to rt's files);
                           until FOLDER/ended is there, which whoever started rt ci makes
kit.py static CRATE INTO   the static library of a crate that crates.txt lists as one: INTO/libCRATE.a, the bitcode that it was compiled from (CRATE.bc), and the words it was compiled by (CRATE.words)

What the tools know of Rattle's kit: where it is, what crates.txt says, where the library of a proved crate is, and the words of a check, which are those that `rt` gives `rattle`.
PROVED=FOLDER, in the gate, is the folder that `follow` fills: a crate's library is taken from there, and is waited for as long as rt ci runs. `rt ci` leaves libraries that `rt check` and `rt lib`
would build anew, as they were made of statements alone; a check over them is the one that rt ci itself makes. With no PROVED the libraries are those that `rt lib` makes, in crates/CRATE/out."""
import os, re, shutil, subprocess, sys, tempfile, time

ROOT = os.path.dirname(os.path.dirname(os.path.abspath(__file__)))
SECONDS = 0.5  # between two looks at what rt ci has proved
MEMORY, PATIENCE = 2_500_000, 600  # what a check beside others is to find free, in kB, and how many seconds it waits for that
CPU = "--cpu=x86-64"  # a static library is for every x86-64 processor, as it always was; rt's own choice is a newer one


class Unproved(Exception):
    """A crate that is not proved, and what was said of it."""


def kit():
    found = shutil.which("rt") or sys.exit("there is no `rt` on the path")
    return os.path.dirname(os.path.dirname(os.path.realpath(found)))


def toolchain():
    return f"{kit()}/toolchain"


# ---- what crates.txt says
def crates_of(root):
    """Of each crate whether it is a static library, and the libraries that it names, in the file's order."""
    with open(f"{root}/crates.txt", encoding="utf-8") as file:
        rows = re.findall(r"^[ \t]*(\w+)([^:#\n]*):([^#\n]*)", file.read(), re.M)
    return {name: ("staticlib" in kind.split(), deps.split()) for name, kind, deps in rows}


def below(crates, name):
    """The repository's libraries below a crate, each behind those that it uses."""
    found = []
    for dep in crates[name][1]:
        if dep in crates:
            found += [one for one in [*below(crates, dep), dep] if one not in found]
    return found


# ---- libraries of proved crates
def library(root, name):
    """Where the library of a proved crate is."""
    proved = os.environ.get("PROVED")
    return f"{proved}/{name}/{name}.rlib" if proved else f"{root}/crates/{name}/out/rlib/{name}.rlib"


def is_proved(name):
    """In the gate: whether rt ci has proved a crate, or None where it may do so yet."""
    proved = os.environ["PROVED"]
    # where the folder is gone, nobody is left to make the file
    ended = os.path.exists(f"{proved}/ended") or not os.path.isdir(proved)
    return os.path.isdir(f"{proved}/{name}") or (False if ended else None)


def in_gate():
    return bool(os.environ.get("PROVED"))


def wait_for(name):
    while is_proved(name) is None:
        time.sleep(SECONDS)
    if not is_proved(name):
        raise Unproved(f"{name} is not proved")


def make(root, name, *flags):
    """Has rt prove a library, with those below it, and build it."""
    ran = subprocess.run(["rt", "lib", *flags], cwd=f"{root}/crates/{name}", stdout=subprocess.PIPE, stderr=subprocess.STDOUT, stdin=subprocess.DEVNULL, text=True, errors="replace")
    if ran.returncode:
        raise Unproved(f"{name} is not proved\n{ran.stdout[-3000:]}")


def need(root, *names):
    """Has the libraries of these crates there, and those below."""
    for name in names:
        if in_gate():
            # rt ci proves what is below first
            wait_for(name)
        else:
            make(root, name)


def words_over(root, name, deps, top="src/lib.rt", jobs=1):
    """The words of a check of a crate of this name, over libraries of the repository and of the kit."""
    crates, made = crates_of(root), f"{kit()}/rlibs"
    said = ["--crate-name", name, top]
    for dep in ["std", *deps]:
        said += ["--extern", f"{dep}={library(root, dep) if dep in crates else f'{made}/{dep}.rlib'}"]
    for folder in [made, *(os.path.dirname(library(root, one)) for one in below({**crates, name: (False, deps)}, name))]:
        said += ["-L", f"dependency={folder}"]
    return [*said, "--antt-project", f"{kit()}/rattle/logic/antt-project.json", "--logic-built", f"{kit()}/logic_built", "--jobs", str(jobs), "--links", f"{name}="]


def words(root, name):
    """The words of a check, or of a build, of a crate of the repository, in its folder or in that of a copy."""
    is_static, deps = crates_of(root)[name]
    top = "src/main.rt" if os.path.isfile(f"{root}/crates/{name}/src/main.rt") else "src/lib.rt"
    return words_over(root, name, deps, top) + (["--crate-type", "staticlib"] if is_static else [])


def wait_for_memory():
    """Waits until there is room for a check beside others, as rt ci does for its own; but not for ever."""
    for _ in range(int(PATIENCE / SECONDS)):
        with open("/proc/meminfo", encoding="utf-8") as file:
            if int(re.search(r"MemAvailable:\s+(\d+)", file.read())[1]) > MEMORY:
                return
        time.sleep(SECONDS)


def rattle(verb, folder, *said):
    """Runs the kit's compiler in a crate's folder, and gives its status, what it wrote, and the seconds of processor that it took."""
    wait_for_memory()
    with tempfile.TemporaryFile("w+", errors="replace") as out:
        run = subprocess.Popen([f"{kit()}/bin/rattle", verb, *said], cwd=folder, stdout=out, stderr=out, stdin=subprocess.DEVNULL)
        try:
            _, status, spent = os.wait4(run.pid, 0)
        except BaseException:
            run.kill()
            raise
        out.seek(0)
        return os.waitstatus_to_exitcode(status), out.read(), spent.ru_utime + spent.ru_stime


# ---- beside rt ci
def links(source, target):
    """A folder again, its files by links where these can be made: rt removes such a file before it makes it anew, and writes into none."""

    def copy(one, other):
        try:
            os.link(one, other)
        except OSError:
            shutil.copy2(one, other)

    shutil.copytree(source, target, copy_function=copy)


def follow(log, folder):
    told = set()
    while True:
        is_over = os.path.exists(f"{folder}/ended")
        with open(log, encoding="utf-8", errors="replace") as file:
            said = re.findall(r"^rt: (\w+) (?:proved$|is kept: )", file.read(), re.M)
        for name in said:
            if name not in told:
                told.add(name)
                new, made = f"{folder}/new.{name}", f"{ROOT}/crates/{name}/out/rlib/{name}.rlib"
                os.mkdir(new)
                # a program and a static library have none
                if os.path.isdir(made):
                    links(made, f"{new}/{name}.rlib")
                os.rename(new, f"{folder}/{name}")
        if is_over or not os.path.isdir(folder):
            return
        time.sleep(SECONDS)


# ---- static libraries
def keeping(folder):
    """In a folder: a toolchain of links to the kit's, but that its clang is a script. It keeps the bitcode that it is to compile, and the words that it is called by, as module.bc and words in that
    folder, then calls the kit's. So what is compiled for other machines is what was proved. rattle hands on no environment, so the folder stands in the script."""
    made = f"{folder}/toolchain"
    os.makedirs(f"{made}/bin")
    for name in os.listdir(toolchain()):
        if name != "bin":
            os.symlink(f"{toolchain()}/{name}", f"{made}/{name}")
    for name in os.listdir(f"{toolchain()}/bin"):
        if name != "clang":
            os.symlink(f"{toolchain()}/bin/{name}", f"{made}/bin/{name}")
    with open(f"{made}/bin/clang", "w", encoding="utf-8") as file:
        file.write(f'#!/bin/sh\n[ ! -f module.bc ] || {{ /bin/cp module.bc "{folder}/" && echo "$*" >"{folder}/words"; }} || exit 1\nexec "{toolchain()}/bin/clang" "$@"\n')
    os.chmod(f"{made}/bin/clang", 0o755)
    return made


def static(root, name, into):
    """Proves a static library's own crate, over the libraries below it, and compiles it."""
    here = f"{root}/crates/{name}"
    if not crates_of(root).get(name, (False, []))[0]:
        raise Unproved(f"{name}: crates.txt lists no static library of this name")
    if in_gate():
        wait_for(name)
    else:
        make(root, name, CPU)
    with tempfile.TemporaryDirectory() as work:
        work = os.path.realpath(work)
        said = [*words(root, name), CPU, "--toolchain", keeping(work), "--backend", "llvm", "-o", f"{work}/lib{name}.a"]
        said += [] if in_gate() else ["--incremental", "out/incremental"]
        status, told, _ = rattle("build", here, *said)
        if status:
            raise Unproved(f"{name}: no static library\n{told[-3000:]}")
        if not in_gate() and not same(f"{work}/lib{name}.a", f"{here}/out/lib{name}.a"):
            raise Unproved(f"{name}: the library with the bitcode beside it is not the one that rt lib makes")
        os.makedirs(into, exist_ok=True)
        for made, at in ((f"lib{name}.a", f"lib{name}.a"), ("module.bc", f"{name}.bc"), ("words", f"{name}.words")):
            shutil.copy(f"{work}/{made}", f"{into}/{at}")


def same(one, other):
    with open(one, "rb") as a, open(other, "rb") as b:
        return a.read() == b.read()


def main():
    if len(sys.argv) == 4 and sys.argv[1] == "follow":
        follow(*sys.argv[2:])
    elif len(sys.argv) == 4 and sys.argv[1] == "static":
        try:
            static(ROOT, *sys.argv[2:])
        except Unproved as why:
            sys.exit(str(why))
    else:
        sys.exit(__doc__)


if __name__ == "__main__":
    main()

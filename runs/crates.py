"""The crates of the repository, what they are made of, and what the kit's compiler is passed for one."""
import functools
import os
import subprocess

top = os.path.dirname(os.path.dirname(os.path.abspath(__file__)))
PARTS = "src", "specs", "proofs"


def lines():
    """What stands before the colon of each line of crates.txt, and after it."""
    with open(os.path.join(top, "crates.txt")) as file:
        rows = [line.partition("#")[0].partition(":") for line in file]
    return [(head.split(), libraries.split()) for head, colon, libraries in rows if colon]


@functools.cache
def read_uses():
    """The libraries that each crate of the repository names in crates.txt."""
    return {head[0]: libraries for head, libraries in lines()}


def is_static(name):
    """Whether a crate is a static library, for C."""
    return [name, "staticlib"] in [head for head, _ in lines()]


@functools.cache
def below(name):
    """The crates of the repository that a crate stands on: each after those that it stands on itself."""
    lower = [it for it in read_uses()[name] if it in read_uses()]
    return list(dict.fromkeys(it for crate in lower for it in [*below(crate), crate]))


def is_program(name):
    return os.path.isfile(os.path.join(top, "crates", name, "src", "main.rt"))


def sources(name, root=top):
    """The files and folders that a crate is made of: a folder is newer than the last file that was taken out of it."""
    for part in PARTS:
        for at, folders, files in os.walk(os.path.join(root, "crates", name, part)):
            folders.sort()
            yield at
            yield from (os.path.join(at, it) for it in sorted(files) if it.endswith((".rt", ".antt")))


def newest(names):
    """When the last of the sources of these crates was changed, in nanoseconds."""
    paths = [os.path.join(top, "crates.txt"), *(path for name in names for path in sources(name))]
    return max(os.stat(path).st_mtime_ns for path in paths)


def program_of(name, root=top):
    return os.path.join(root, "crates", name, "out", name)


def static_library_of(name):
    """The static library of a crate that `runs/c` proved and built."""
    return os.path.join(top, "out", "c", "parts", f"lib{name}.a")


def is_old(name):
    """Whether a program or a static library is missing, or older than a source that it is made of. What another library states is
    looked up later."""
    made = program_of(name) if is_program(name) else static_library_of(name) if is_static(name) else ""
    if not os.access(made, os.R_OK):
        return True
    return newest([name, *below(name)]) > os.stat(made).st_mtime_ns


@functools.cache
def kit():
    """The folder of the kit."""
    return os.path.dirname(subprocess.check_output(["rt", "doc"], text=True).strip())


def library_of(name):
    """The library of a crate that `runs/build` proved."""
    return os.path.join(top, "out", "stated", name + ".rlib")


def proved(names):
    """Where the libraries of crates are: those that the gate left, if each is newer than all that it is made of, or else those of
    `runs/build`, which proves what isn't proved yet. If it fails, there are none."""
    found = {name: os.path.join(top, "crates", name, "out", "rlib", name + ".rlib") for name in names}
    if all(os.path.exists(path) and os.stat(path).st_mtime_ns > newest([*below(name), name]) for name, path in found.items()):
        return found
    built = subprocess.run([os.path.join(top, "runs", "build"), *names])
    return {} if built.returncode else {name: library_of(name) for name in names}


def words(name, libraries):
    """What the kit's compiler is passed for a crate, over these libraries of the crates below it."""
    given = ["--crate-name", name, "src/main.rt" if is_program(name) else "src/lib.rt"]
    for it in ["std", *read_uses()[name]]:
        given += ["--extern", f"{it}={libraries.get(it) or f'{kit()}/rlibs/{it}.rlib'}"]
    for folder in sorted({f"{kit()}/rlibs", *map(os.path.dirname, libraries.values())}):
        given += ["-L", f"dependency={folder}"]
    given += ["--crate-type", "staticlib"] if is_static(name) else []
    return [*given, "--antt-project", f"{kit()}/rattle/logic/antt-project.json", "--logic-built", f"{kit()}/logic_built"]

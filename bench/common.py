"""What the scripts of bench/ share: they build a program, and count its instructions and its peak
memory. Each ends with one sentence on standard error, and status 1, if it cannot go on."""
import concurrent.futures
import fcntl
import os
import re
import shutil
import subprocess
import sys
import tempfile

TOP = os.path.dirname(os.path.dirname(os.path.abspath(__file__)))
REGISTRY = "/usr/share/cargo/registry"
# A name of 20 letters and a literal of 30 bytes: too long for what a text holds in place.
NAME = "name_of_twenty_bytes"
STRING = '"one string with thirty bytes"'
# The statuses of a replay: 1 is a verdict that rejects.
REPLAYED = (0, 1)


def fail(why):
    sys.exit(f"{os.path.basename(sys.argv[0])}: {why}")


def run(command, **options):
    """Runs a command to its end. A command that is not there ends the script."""
    try:
        return subprocess.run(command, **options)
    except FileNotFoundError:
        fail(f"there is no command {command[0]}")


def must(command, what, **options):
    """Runs a command that has to succeed, and returns its output."""
    done = run(command, stdout=subprocess.PIPE, stderr=subprocess.PIPE, **options)
    if done.returncode:
        sys.stderr.buffer.write(done.stderr or done.stdout)
        fail(f"{what}: {' '.join(command[:3])} .. ended with status {done.returncode}")
    return done.stdout


def counted_tree(top=TOP):
    """Returns the name of the tree of crates/, which a rebase keeps. What is counted has to be
    committed."""
    git = ["git", "-C", top]
    if must([*git, "status", "--porcelain", "crates", "crates.txt"], "git can't say what changed"):
        fail("commit the crates first: each figure names their tree")
    named = must([*git, "rev-parse", "--short", "HEAD:crates"], "git can't name a tree")
    return named.decode().strip()


def built(crate):
    """Returns the program of a crate, which is proved and built unless that is done."""
    proving = [f"{TOP}/tools/program", "--prove", f"bench/{os.path.basename(sys.argv[0])}", crate]
    if run(proving).returncode:
        fail(f"{crate} could not be proved and built")
    return f"{TOP}/crates/{crate}/out/{crate}"


def library(crate):
    """Returns the folder of the static library of a crate, which `rt lib` has to have made of what
    is there now."""
    asked = [f"{TOP}/tools/program", "--library", f"bench/{os.path.basename(sys.argv[0])}", crate]
    return must(asked, f"there is no library of {crate}").decode().strip()


def peer(name, room):
    """Returns the program of bench/NAME, which cargo builds in the folder `room` over Debian's
    packages alone."""
    folder = f"{room}/peer"
    shutil.copytree(f"{TOP}/bench/{name}", folder)
    os.mkdir(f"{folder}/.cargo")
    with open(f"{folder}/.cargo/config.toml", "w", encoding="utf-8") as file:
        file.write(
            '[source.crates-io]\nreplace-with = "debian"\n'
            f'[source.debian]\ndirectory = "{REGISTRY}"\n'
        )
    must(
        ["cargo", "build", "--release", "--offline", "--quiet"],
        f"bench/{name} could not be built",
        cwd=folder,
    )
    return f"{folder}/target/release/{name}"


def install(packages):
    """Installs Debian's packages, which needs root. Scripts that run side by side do it in turn."""
    with open(__file__, encoding="utf-8") as lock:
        fcntl.flock(lock, fcntl.LOCK_EX)
        must(["apt-get", "update"], "the list of packages could not be read")
        must(
            ["apt-get", "install", "-y", "--no-install-recommends", *packages],
            "the packages could not be installed",
        )


def side_by_side(count, items):
    """Yields what `count` returns for each item, in order. As many run at once as there are
    processors; the first that fails is the last."""
    with concurrent.futures.ThreadPoolExecutor(os.cpu_count()) as pool:
        try:
            yield from pool.map(count, items)
        finally:
            pool.shutdown(cancel_futures=True)


def instructions(command, given=b"", path=None, statuses=(0,), folder=None):
    """Returns how many instructions a program takes, by valgrind's callgrind. Its input is `given`,
    or the file at `path`. It runs in `folder`, and has to end with one of the statuses."""
    with tempfile.NamedTemporaryFile() as out:
        counted = ["valgrind", "--tool=callgrind", f"--callgrind-out-file={out.name}", *command]
        options = {"stdout": subprocess.DEVNULL, "stderr": subprocess.PIPE, "cwd": folder}
        if path is None:
            done = run(counted, input=given, **options)
        else:
            with open(path, "rb") as stdin:
                done = run(counted, stdin=stdin, **options)
    found = re.search(rb"Collected : (\d+)", done.stderr)
    if done.returncode not in statuses or not found:
        sys.stderr.buffer.write(done.stderr)
        fail(f"{command[0]} under valgrind ended with status {done.returncode}")
    return int(found.group(1))


def peak_kib(command, given=b"", path=None, statuses=(0,)):
    """Returns the peak memory of a program in KiB. Its input is `given`, or the file at `path`. It
    has to end with one of the statuses.

    GNU time starts the program: the peak of a process counts what the one that started it held, and
    GNU time holds less than any program here."""
    if path is None:
        with tempfile.NamedTemporaryFile() as file:
            file.write(given)
            file.flush()
            return peak_kib(command, path=file.name, statuses=statuses)
    with tempfile.NamedTemporaryFile() as out, open(path, "rb") as stdin:
        measured = ["/usr/bin/time", "--format=%M", f"--output={out.name}", *command]
        done = run(measured, stdin=stdin, stdout=subprocess.DEVNULL, stderr=subprocess.PIPE)
        found = re.search(rb"^(\d+)$", out.read(), re.M)
    if done.returncode not in statuses or not found:
        sys.stderr.buffer.write(done.stderr)
        fail(f"{command[0]} ended with status {done.returncode} while its memory was measured")
    return int(found.group(1))

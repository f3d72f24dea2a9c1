#!/usr/bin/env python3
"""Makes a release: dist.py PROGRAM NAME FOLDER writes NAME-VERSION-linux-x86_64.tar.gz and NAME_VERSION_amd64.deb into the folder,
with their SHA256SUMS. The same sources and the same program give the same bytes."""

import contextlib
import gzip
import hashlib
import io
import os
import shutil
import subprocess
import sys
import tarfile
import tempfile
from pathlib import Path

TOP = Path(__file__).resolve().parent.parent
sys.dont_write_bytecode = True

import pages  # noqa: E402

# The oldest C library with which the program runs: that of Debian 12, Ubuntu 22.04 and Fedora 35 is as new.
GLIBC = "2.34"

START = """icserve reduces interaction nets. Begin in this folder with

    {at}icserve reduce examples/addition.ic     which prints <S(S(S(S(Z))))|>
    {at}icserve help                            which tells the other commands
    {at}icserve help language                   which tells how nets are written
    {python}

and read on in README.md, whose commands may be typed {typed}.
It needs Linux on x86-64 with glibc {glibc} or later. The scripts icserve-film, -listen, -send and -page beside it need Python 3.8
or later, and film and pictures Graphviz.
{where}
It was made from the commit {commit}.

{version}
sources {sources}
{proved}
"""

# What prints the same sum from Python.
PYTHON = """python3 -c "import icserve; print(icserve.reduce(open('examples/addition.ic').read()))\""""

# What else is told, by what a release is.
ARCHIVE = {
    "at": "./",
    "python": f"PYTHONPATH=python {PYTHON}",
    "typed": "here as they stand there",
    "where": """To have icserve everywhere, put bin/ on the path, or copy bin/ and share/ below /usr/local. Then `pip install ./python` gives
Python its package, without a network; Debian's pip asks for a virtual environment (`python3 -m venv`).""",
}
PACKAGE = {
    "at": "",
    "python": PYTHON,
    "typed": "here, with icserve for ./icserve, and icserve-film for ./film",
    "where": "The rules of lib/ and the scripts of cluster/ are in /usr/share/icserve.",
}

PROVED = "This program was built from functions each of which the Rattle kit has proved to meet its contract."
UNPROVED = "This program was built from the same sources, but not by way of their proofs. It is slower than the proved one."

CONTROL = """Package: {name}
Version: {version}
Architecture: amd64
Maintainer: Sidelime maintainers <maintainers@users.noreply.sidelime.example>
Depends: libc6 (>= {glibc})
Recommends: python3 (>= 3.8), graphviz
Provides: icserve
Conflicts: icserve
Section: science
Priority: optional
Installed-Size: {size}
Description: reduces interaction nets, and keeps jobs of them on disk
 Reduces nets of the interaction calculus in place or by rounds, draws
 and traces them, and serves jobs that survive a stop at any moment.
"""


def said(*command, **env):
    how = {"stdout": subprocess.PIPE, "stderr": subprocess.DEVNULL, "cwd": TOP, "env": {**os.environ, **env}}
    ran = subprocess.run(command, universal_newlines=True, **how)
    return ran.stdout.strip() if ran.returncode == 0 else ""


def told_in(name, version, release):
    """What a release tells of itself: how to begin, and what it was made from."""
    sources = said("./icserve", ICSERVE_BUILD="sources").split(" ")[0]
    commit = said("git", "describe", "--always", "--dirty") or "of no commit"
    proved = UNPROVED if name.endswith("unproved") else PROVED
    return START.format(glibc=GLIBC, commit=commit, version=version, sources=sources, proved=proved, **release)


def moment():
    """The time that all files get: that of the commit, if there is one."""
    return int(os.environ.get("SOURCE_DATE_EPOCH") or said("git", "log", "-1", "--format=%ct") or 315_532_800)


def lay(program, root):
    """Puts what is installed into a folder: programs, pages and completions, the library, examples and the scripts for many machines."""
    (root / "bin").mkdir(parents=True)
    shutil.copy(program, root / "bin/icserve")
    for name, script in pages.SCRIPTS.items():
        shutil.copy(TOP / script, root / "bin" / name)
    for it in (root / "bin").iterdir():
        it.chmod(0o755)
    with contextlib.redirect_stdout(io.StringIO()):
        pages.main(str(root / "bin/icserve"), str(root))
    for it in ("lib", "examples", "cluster"):
        copy(TOP / it, root / "share/icserve" / it)


def copy(folder, to):
    shutil.copytree(folder, to, ignore=shutil.ignore_patterns("__pycache__", "*.egg-info", "build"))


def lay_pages(folder):
    """Puts the pages into a folder, as they stand in a clone."""
    copy(TOP / "docs", folder / "docs")
    for it in TOP.glob("*.md"):
        shutil.copy(it, folder)


def archive(folder, path):
    """Writes a folder as a compressed archive, whatever its files' times and owners are."""

    def plain(entry):
        entry.uid = entry.gid = 0
        entry.uname = entry.gname = "root"
        entry.mtime = moment()
        entry.mode = 0o755 if entry.isdir() or entry.mode & 0o100 else 0o644
        return entry

    data = io.BytesIO()
    with tarfile.open(fileobj=data, mode="w", format=tarfile.USTAR_FORMAT) as tar:
        for it in sorted([folder, *folder.rglob("*")]):
            tar.add(it, str(it.relative_to(folder.parent)), recursive=False, filter=plain)
    with path.open("wb") as file, gzip.GzipFile("", "wb", 9, file, mtime=0) as packed:
        packed.write(data.getvalue())


def package(name, version, folder, path):
    """Writes a package of Debian with what a folder has below /usr."""
    control = folder / "DEBIAN/control"
    control.parent.mkdir()
    size = sum(it.stat().st_size for it in folder.rglob("*") if it.is_file()) // 1024
    control.write_text(CONTROL.format(name=name, version=version, glibc=GLIBC, size=size))
    for it in sorted(folder.rglob("*")):
        it.chmod(0o755 if it.is_dir() or it.stat().st_mode & 0o100 else 0o644)
        os.utime(it, (moment(), moment()))
    env = {**os.environ, "SOURCE_DATE_EPOCH": str(moment())}
    subprocess.run(["dpkg-deb", "--root-owner-group", "-Zgzip", "--build", folder, path], check=True, env=env, stdout=subprocess.DEVNULL)


def main(program, name, folder):
    folder = Path(folder)
    folder.mkdir(parents=True, exist_ok=True)
    says = subprocess.run([program, "--version"], stdout=subprocess.PIPE, check=True, universal_newlines=True).stdout.strip()
    version = says.split()[1]
    made = []
    with tempfile.TemporaryDirectory() as room:
        tree = Path(room, f"{name}-{version}")
        lay(program, tree)
        (tree / "START").write_text(told_in(name, says, ARCHIVE))
        lay_pages(tree)
        for it in ("examples", "cluster", "lib", "python"):
            copy(TOP / it, tree / it)
        for it in ("icserve", *pages.SCRIPTS):
            (tree / it.split("-")[-1]).symlink_to(f"bin/{it}")
        made.append(folder / f"{name}-{version}-linux-x86_64.tar.gz")
        archive(tree, made[-1])
        if shutil.which("dpkg-deb"):
            root = Path(room, "deb")
            for it in ("bin", "share"):
                copy(tree / it, root / "usr" / it)
            copy(TOP / "python/icserve", root / "usr/lib/python3/dist-packages/icserve")
            doc = root / "usr/share/doc/icserve"
            lay_pages(doc)
            (doc / "START").write_text(told_in(name, says, PACKAGE))
            for it in ("lib", "examples", "cluster"):
                (doc / it).symlink_to(f"../../icserve/{it}")
            made.append(folder / f"{name}_{version}_amd64.deb")
            package(name, version, root, made[-1])
    sums = "".join(f"{hashlib.sha256(it.read_bytes()).hexdigest()}  {it.name}\n" for it in made)
    (folder / "SHA256SUMS").write_text(sums)
    print(sums, end="")


if __name__ == "__main__":
    main(*sys.argv[1:])

#!/usr/bin/env python3
"""Tries scripts/install and scripts/package, as root and as nobody, in folders of their own.

    scripts/try_install.py [BINARY]

BINARY is crates/dcmtools/out/dcmtools if it is not given. Each case says which files have to be there after a step. Exits with 0 if
each case ends as it should. As root it also installs and removes the packages in a new root of dpkg.
"""
import os
import pwd
import shutil
import subprocess
import sys
import tempfile
from pathlib import Path

sys.dont_write_bytecode = True
ROOT = Path(__file__).resolve().parent.parent
TOOLS = ("dcmdump", "dcmconv", "dump2dcm", "dcmodify", "dcmdeid", "dcm2csv")
FILES = {"bin/dcmtools", "share/man/man1/dcmtools.1", "share/bash-completion/completions/dcmtools",
         "share/bash-completion/completions/dcmtools.keywords", "share/zsh/site-functions/_dcmtools",
         "share/zsh/site-functions/dcmtools.keywords", "share/doc/dcmtools/LICENSE", "share/doc/dcmtools/CHANGELOG.md"}
NOTE = "share/dcmtools/installed"
NAMES = {f"bin/{tool}" for tool in TOOLS}
wrong = 0


def expect(name, is_so, told=""):
    global wrong
    if not is_so:
        wrong += 1
        print(f"{name}: wrong {told}")


def files_in(folder):
    return {str(path.relative_to(folder)) for path in folder.rglob("*") if not path.is_dir()} if folder.is_dir() else set()


def run(words, **how):
    return subprocess.run([str(word) for word in words], capture_output=True, text=True, **how)


def as_nobody():
    nobody = pwd.getpwnam("nobody")
    return {"user": nobody.pw_uid, "group": nobody.pw_gid, "extra_groups": []}


def try_install(binary, name, room, words, prefix, **how):
    """Installs, twice, adds the names of DCMTK's programs, and removes all."""
    environment = {"PATH": os.environ["PATH"], "DCMTOOLS": str(binary), "HOME": str(room)}
    script = ROOT / "scripts/install"
    for turn in ("first", "again"):
        done = run([script, *words], env=environment, cwd=room, **how)
        expect(f"{name}, {turn}", done.returncode == 0, done.stderr)
        expect(f"{name}, {turn}: files", files_in(prefix) == FILES | {NOTE}, files_in(prefix) ^ (FILES | {NOTE}))
    version = run([prefix / "bin/dcmtools", "version"])
    expect(f"{name}: the program", version.returncode == 0 and version.stdout.startswith("dcmtools "), version.stdout)
    completed = run(["bash", "-c", f". {prefix}/share/bash-completion/completions/dcmtools && complete -p dcmtools"])
    expect(f"{name}: completion", "dcmtools" in completed.stdout, completed.stderr)
    mine = prefix / "bin/mine"
    mine.write_bytes(b"mine")
    done = run([script, *words, "--dcmtk-names"], env=environment, cwd=room, **how)
    expect(f"{name}, names", done.returncode == 0 and files_in(prefix) == FILES | NAMES | {NOTE, "bin/mine"}, done.stderr)
    done = run([script, *words, "--remove"], env=environment, cwd=room, **how)
    expect(f"{name}, removed", done.returncode == 0 and files_in(prefix) == {"bin/mine"}, files_in(prefix))
    done = run([script, *words, "--remove"], env=environment, cwd=room, **how)
    expect(f"{name}, removed again", done.returncode == 1 and "nothing is installed" in done.stderr, done.stderr)


def try_packages(binary, room):
    """Makes the packages, installs them in a new root of dpkg, and removes them."""
    done = run([ROOT / "scripts/package", room], env={**os.environ, "DCMTOOLS": str(binary)})
    expect("packages", done.returncode == 0, done.stderr)
    packages = sorted(room.glob("*.deb"))
    expect("packages: two", len(packages) == 2, packages)
    root = room / "root"
    (root / "var/lib/dpkg/updates").mkdir(parents=True)
    (root / "var/lib/dpkg/info").mkdir()
    (root / "var/lib/dpkg/status").touch()
    dpkg = ["dpkg", f"--root={root}", "--force-depends", "--force-not-root"]
    done = run([*dpkg, "--install", *packages])
    expect("packages, installed", done.returncode == 0, done.stderr)
    there = files_in(root / "usr")
    wanted = {"bin/dcmtools", "share/man/man1/dcmtools.1.gz", "share/doc/dcmtools/copyright", "share/doc/dcmtools/changelog.gz",
              "share/zsh/vendor-completions/_dcmtools", "share/bash-completion/completions/dcmtools"} | NAMES
    expect("packages: files", wanted <= there, wanted - there)
    done = run([*dpkg, "--purge", "dcmtools-dcmtk-names", "dcmtools"])
    expect("packages, removed", done.returncode == 0 and not files_in(root / "usr"), f"{done.stderr} {files_in(root / 'usr')}")


def main():
    binary = Path(sys.argv[1] if len(sys.argv) > 1 else ROOT / "crates/dcmtools/out/dcmtools").resolve()
    if not os.access(binary, os.X_OK):
        sys.exit(f"try_install: no program at {binary}")
    with tempfile.TemporaryDirectory() as folder:
        room = Path(folder)
        room.chmod(0o755)
        own = room / "dcmtools"
        shutil.copy(binary, own)
        own.chmod(0o755)
        (room / "root").mkdir()
        try_install(own, "a prefix", room / "root", [room / "root/usr"], room / "root/usr")
        (room / "relative").mkdir()
        try_install(own, "a relative prefix", room / "relative", ["here"], room / "relative/here")
        if os.getuid() == 0:
            home = room / "home"
            home.mkdir()
            shutil.chown(home, "nobody")
            try_install(own, "nobody at home", home, [], home / ".local", **as_nobody())
            packages = room / "packages"
            packages.mkdir()
            try_packages(own, packages)
        missing = run([ROOT / "scripts/install", room / "none"], env={**os.environ, "DCMTOOLS": str(room / "no")})
        expect("no program", missing.returncode == 1 and not files_in(room / "none"), missing.stderr)
    print(f"{wrong} wrong")
    sys.exit(1 if wrong else 0)


if __name__ == "__main__":
    main()

"""Says where the time of a crate's proof goes, function by function: python3 tools/slow.py NAME [LINES]

The crate is checked from nothing by the kit's own `rattle check`, into a folder that is removed again. It saves each module
when it is done with it, so the times at which the files were saved tell how long each took. What stands below the crate is
proved first where it is not (rt check).
"""
import collections
import os
import pathlib
import re
import subprocess
import sys
import tempfile

# the modules that the check makes for each function, and its proof
PARTS = re.compile(r"Lts.*|Given|View|Key|Kinds|Reads|Named|Tie|TheLink|Met|Code|Mir|Statement|Layout|Symbol|Goals|Answers|Invariants|Proof")


def below():
    """The crates that each crate of crates.txt names, and how its line goes on."""
    lines = (line.split("#")[0].partition(":") for line in open("crates.txt"))
    return {left.split()[0]: (right.split(), left.split()[1:]) for left, _, right in lines if left.strip()}


def module_of(path, crate):
    name = re.sub(r"(\.decls)?\.oantt$", "", path.name)
    words = re.sub(rf"^Rattle-{crate}(?=[-.])[-.](?:(?:specs|proofs)\b\.?)?(?:contracts\.)?", "", name).split(".")
    return ".".join(words[: next((i for i, word in enumerate(words) if i and PARTS.fullmatch(word)), None)])


def main():
    if len(sys.argv) < 2:
        sys.exit(__doc__)
    crate, uses = sys.argv[1], below()
    if crate not in uses:
        sys.exit(f"crates.txt has no crate {crate}")
    folder = pathlib.Path("crates") / crate
    if subprocess.run(["rt", "check"], cwd=folder, stdout=subprocess.DEVNULL).returncode:
        sys.exit(f"{crate} is not proved with all that it stands on: rt check says why")
    kit = os.path.dirname(subprocess.run(["rt", "doc"], capture_output=True, text=True, check=True).stdout.strip())
    deps, kinds = uses[crate]
    every = list(deps)
    for dep in every:
        every += [it for it in uses[dep][0] if it not in every]
    root = "src/main.rt" if (folder / "src/main.rt").exists() else "src/lib.rt"
    words = ["--crate-name", crate, root, "--extern", f"std={kit}/rlibs/std.rlib", "-L", f"dependency={kit}/rlibs"]
    for dep in deps:
        words += ["--extern", f"{dep}=../{dep}/out/rlib/{dep}.rlib"]
    for dep in every:
        words += ["-L", f"dependency=../{dep}/out/rlib"]
    words += ["--crate-type", "staticlib"] if "staticlib" in kinds else []
    words += ["--antt-project", f"{kit}/rattle/logic/antt-project.json", "--logic-built", f"{kit}/logic_built", "--jobs", "1"]
    with tempfile.TemporaryDirectory() as saved:
        told = subprocess.run([f"{kit}/bin/rattle", "check", *words, "--incremental", saved], cwd=folder, stdout=subprocess.PIPE, stderr=subprocess.STDOUT, text=True).stdout
        files = sorted((f.stat().st_mtime, f) for f in pathlib.Path(saved).rglob("*.oantt"))
    print(next((line for line in told.splitlines() if line.startswith("logic=")), f"no verdict\n{told}"))
    times = collections.Counter()
    for (before, _), (after, file) in zip(files, files[1:]):
        times[module_of(file, crate)] += after - before
    for name, seconds in times.most_common(int(sys.argv[2]) if len(sys.argv) > 2 else 15):
        print(f"{seconds:7.2f} s  {name}")


main()

"""Puts each function of the libraries at a place of its own in a line of 64 bytes, so that `bench all` can be run at many.

    python3 bench/places.py target/staticlib OUT SEED       # OUT, by its whole path, gets the same archives, placed
    cd bench; FRAMING_LIB=OUT cargo run --release --offline -- all --csv

The place, 0, 16, 32 or 48, is drawn by SEED and the function's name; with p0, p16, p32 or p48 for SEED it is that one
for all. The same seed gives a function of two builds the same place. Needs binutils.
"""

import hashlib
import pathlib
import subprocess
import sys
import tempfile


def place(seed, section):
    if seed[:1] == "p":
        return int(seed[1:])
    return 16 * (hashlib.sha256(f"{seed} {section}".encode()).digest()[0] % 4)


def sections(path):
    listed = subprocess.run(["objdump", "-h", path], capture_output=True, text=True, check=True).stdout
    words = (line.split() for line in listed.splitlines())
    return [w[1] for w in words if len(w) >= 7 and w[1].startswith(".text")]


def placed(archive, out, seed):
    with tempfile.TemporaryDirectory() as folder:
        work = pathlib.Path(folder)
        subprocess.run(["ar", "x", archive.resolve()], cwd=work, check=True)
        objects = sorted(path.name for path in work.iterdir())
        lines = ["SECTIONS {", ".text : SUBALIGN(16) {"]
        for name in objects:
            for section in sections(work / name):
                # A linker script has no "::" in a name: "?" stands for any character.
                lines.append(f". = ALIGN(64); . += {place(seed, section)}; *({section.replace(':', '?')})")
        (work / "places.ld").write_text("\n".join([*lines, "}", "}", ""]))
        subprocess.run(["ld", "-r", "-T", "places.ld", "-o", "placed.out", *objects], cwd=work, check=True)
        subprocess.run(["objcopy", "--set-section-alignment", ".text=64", "placed.out"], cwd=work, check=True)
        (out / archive.name).unlink(missing_ok=True)
        subprocess.run(["ar", "rcs", (out / archive.name).resolve(), "placed.out"], cwd=work, check=True)


def main():
    folder, out, seed = pathlib.Path(sys.argv[1]), pathlib.Path(sys.argv[2]), sys.argv[3]
    out.mkdir(parents=True, exist_ok=True)
    for archive in sorted(folder.glob("lib*.a")):
        placed(archive, out, seed)


main()

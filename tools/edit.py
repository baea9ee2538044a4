#!/usr/bin/env python3
"""Tries one wrong program: tools/edit.py CRATE LABEL

Applies crates/CRATE/must-fail/LABEL.edit where it stands, checks the crate (`rt check`), prints the first refusals, and puts everything back.
(`rt must-fail CRATE` tries all edits of the crate, on copies.) A refusal should be about a fact, not about the code's shape.
"""
import subprocess
import sys


def main(crate, label):
    saved, file, old = {}, None, None
    try:
        for line in open(f"crates/{crate}/must-fail/{label}.edit").read().split("\n"):
            if line.startswith("file: "):
                file = f"crates/{crate}/{line[6:]}"
            elif line.startswith("old: "):
                old = line[5:]
            elif line.startswith("new:"):
                text = open(file).read()
                saved.setdefault(file, text)
                if text.count(old) != 1:
                    sys.exit(f"{file} has this {text.count(old)} times: {old}")
                open(file, "w").write(text.replace(old, line[5:]))
        run = subprocess.run(["rt", "check"], cwd=f"crates/{crate}", capture_output=True, text=True)
        said = [x for x in (run.stdout + run.stderr).split("\n") if "error" in x or "no proof" in x or x.startswith("logic=")]
        print("\n".join(x[:400] for x in said[:4] + said[-1:]))
    finally:
        for file, text in saved.items():
            open(file, "w").write(text)


if __name__ == "__main__":
    if len(sys.argv) != 3:
        sys.exit(__doc__)
    main(*sys.argv[1:])

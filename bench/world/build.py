"""Builds the ordinary program, and finds the program that is measured beside it."""
import os
import subprocess

HERE = os.path.dirname(os.path.abspath(__file__))
TOP = os.path.dirname(os.path.dirname(HERE))
MADE = os.path.join(TOP, "bench/made/world")
PROGRAM = os.path.join(TOP, "crates/ananta/out/ananta")


def ordinary(*forms):
    """The ordinary program's path, in these of its forms: `journals`, `redirects`."""
    os.makedirs(MADE, exist_ok=True)
    path = os.path.join(MADE, "-".join(["ordinary", *forms]))
    words = [word for form in forms for word in ("--cfg", form)]
    subprocess.run(["rustc", "--edition", "2021", "-O", "-C", "target-cpu=x86-64-v2", "--check-cfg",
                    "cfg(redirects, journals)", *words, "-o", path, os.path.join(HERE, "main.rs")], check=True)
    return path

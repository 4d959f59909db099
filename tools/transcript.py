#!/usr/bin/env python3
"""Runs each command of a page in a new folder, and compares what it puts out with what stands behind it.

A command is a line that begins with `$ ` in a block for the shell; what follows it in the block is its output, faults
among it. Each picture NAME.png that the page shows is compared with the NAME.ppm or NAME.png that the commands painted,
if they did. A stand-in for pnmtopng leaves a picture as PPM.

Words: the page, and the root of the repository."""
import os
import re
import subprocess
import sys
import tempfile

FIGGROUP = os.environ.get("FIGGROUP")  # the program, if it is not the one in bin
MARK = "-- end of a command --"


def steps(page):
    """Each command of the page with the output that it tells."""
    for block in re.findall(r"^```sh\n(.*?)^```$", page, re.M | re.S):
        for step in re.split(r"^\$ ", block, flags=re.M)[1:]:
            command, _, output = step.partition("\n")
            yield command, output


def run(commands, root, folder):
    """What each command puts out, all run by one shell at the folder."""
    for name in ("examples", "share"):
        os.symlink(os.path.join(root, name), os.path.join(folder, name))
    programs = os.path.join(folder, "bin")
    os.mkdir(programs)
    os.symlink(FIGGROUP or os.path.join(root, "bin", "figgroup"), os.path.join(programs, "figgroup"))
    os.symlink(os.path.join(root, "bin", "draw"), os.path.join(programs, "draw"))
    stand_in = os.path.join(programs, "pnmtopng")
    with open(stand_in, "w") as file:
        file.write("#!/bin/sh\nexec cat\n")
    os.chmod(stand_in, 0o755)
    script = "".join(f"{command}\necho '{MARK}'\n" for command in commands)
    said = subprocess.run(
        ["sh"], input=script, text=True, cwd=folder, stdout=subprocess.PIPE, stderr=subprocess.STDOUT, timeout=600
    ).stdout
    return said.split(MARK + "\n")


def painted(folder, name):
    """The bytes of the picture of this name that a command painted."""
    for place, _, files in os.walk(folder):
        for picture in (name + ".ppm", name + ".png"):
            if picture in files:
                with open(os.path.join(place, picture), "rb") as file:
                    return file.read()
    return b""


def main():
    name, root = sys.argv[1], os.path.abspath(sys.argv[2])
    with open(name) as file:
        page = file.read()
    told = list(steps(page))
    failed = 0
    with tempfile.TemporaryDirectory() as folder:
        came = run([command for command, _ in told], root, folder)
        for (command, output), said in zip(told, came):
            if said != output:
                failed += 1
                print(f"$ {command}\n{said}and not\n{output}", file=sys.stderr)
        for link in re.findall(r"!\[[^\]]*\]\(([^)]*\.png)\)", page):
            pixels = painted(folder, os.path.basename(link)[: -len(".png")])
            if not pixels:
                continue
            picture = os.path.join(os.path.dirname(name), link)
            shown = subprocess.run(
                ["python3", os.path.join(root, "tools", "pixels.py"), picture], stdout=subprocess.PIPE, check=True
            ).stdout
            if shown != pixels:
                failed += 1
                print(f"{link} is another picture", file=sys.stderr)
    sys.exit(1 if failed or len(came) != len(told) + 1 else 0)


main()

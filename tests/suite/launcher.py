"""Which program ./fortress runs."""
import subprocess
import sys

from suite.checks import TOP


def program_of_launcher():
    """The path of the program that ./fortress runs, which it builds first where there is none."""
    ask = [TOP / "release/program"]
    asked = subprocess.run(ask, stdout=subprocess.PIPE, text=True)
    if asked.returncode == 1:
        builds = [TOP / "fortress", "check", TOP / "examples/hello.fss"]
        subprocess.run(builds, stdout=subprocess.DEVNULL)
        asked = subprocess.run(ask, stdout=subprocess.PIPE, text=True)
    if asked.returncode != 0:
        sys.exit("there is no program to try")
    return asked.stdout.rstrip("\n")

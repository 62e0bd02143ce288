"""The programs that the scripts of bench/ run: those that `./roster` and `./roster-page` would run."""
import pathlib
import subprocess
import sys

TOP = pathlib.Path(__file__).resolve().parent.parent


def program_path(name="roster", given=None):
    """The program that would run: proved here from the sources that stand, else compiled here from them; or the one
    that is given. Ends where there is none."""
    if given is None:
        said = subprocess.run([TOP / "program", "--which", name], stdout=subprocess.PIPE, text=True).stdout
        if not said:
            command = {"roster": "./roster", "roster_page": "./roster-page"}[name]
            sys.exit(f"no {name} was built here from the sources that stand: run {command} or ./prove first")
        given = said.rstrip("\n").partition(" ")[2]
    path = pathlib.Path(given).resolve()
    if not path.is_file():
        sys.exit(f"{path} is no program")
    return path

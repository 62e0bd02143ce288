#!/usr/bin/env python3
"""Stores certificates where disks, links, rights and signals get in the way: storing.py [PROGRAM]

Runs `solve`, `make`, `curve` and `check` on the examples, and compares status, standard output, notes and what stands
in the folder with what is written here. Prints a line for each case and fails at the first that is otherwise. Cases
that want root, `strace` or a mount are skipped with a word where they can't be had. The program is the one that
`./roster` would run, or the one that is named.
"""
import os
import pathlib
import re
import shutil
import signal
import subprocess
import sys
import tempfile
import time

sys.dont_write_bytecode = True
from built import program_path

TOP = pathlib.Path(__file__).resolve().parent.parent
SECONDS = 60
OLD = b"proof 1\nold\n"
LEFT = b"the file is no certificate, and was left alone\n"
# Who runs what root may not do.
NOBODY = 65534
# A search that does not end by itself within the seconds of a test.
LONG = ["solve", "days/five1-0.rules", "days/five1-0.demand", "p", "600s"]


def of_storing(notes):
    """Notes without those on what the texts of a day ask for in vain."""
    return re.sub(rb"^((rules|demand): line .*|and \d+ more)\n", b"", notes or b"", flags=re.M)


class Room:
    """A new folder with the texts of the examples, and runs of the program in it."""

    def __init__(self, program, folder):
        self.program, self.folder = program, folder
        folder.mkdir()
        for text in sorted((TOP / "examples").glob("g*")):
            if text.suffix in (".rules", ".demand"):
                shutil.copy(text, folder / text.name)
        self.given = set(os.listdir(folder))

    def path(self, name):
        return self.folder / name

    def made(self):
        """The names that are there beside the texts of the examples."""
        return sorted(set(os.listdir(self.folder)) - self.given)

    def run(self, words, **how):
        """Status, standard output and notes of a run."""
        how = {"stdout": subprocess.PIPE, "stderr": subprocess.PIPE} | how
        done = subprocess.run([self.program, *words], cwd=self.folder, timeout=SECONDS, **how)
        return done.returncode, done.stdout, of_storing(done.stderr)

    def solve(self, proof="p", **how):
        return self.run(["solve", "g1.rules", "g1.demand", proof, "10"], **how)

    def shell(self, line):
        """Status and what a shell's line says; `$P` is the program."""
        done = subprocess.run(["sh", "-c", line], cwd=self.folder, env=os.environ | {"P": str(self.program)},
                              capture_output=True, timeout=SECONDS)
        return done.returncode, done.stdout, of_storing(done.stderr)


def long_days(room):
    """Writes days whose searches are long."""
    subprocess.run([sys.executable, TOP / "bench" / "own_days.py", room.path("days")], check=True, capture_output=True)
    room.given.add("days")


def expect(is_so, *told):
    if not is_so:
        sys.exit("\n".join(str(part) for part in ("it is otherwise:", *told)))


def is_certificate(path):
    return path.read_bytes().startswith(b"proof 1\n") and path.read_bytes().endswith(b"end\n")


def expect_stored(room, run, path, note=b""):
    """Expects status 0, a report, a certificate at the path, and these notes."""
    expect(run[0] == 0 and run[1].startswith(b"report 1\n") and run[2] == note, run)
    expect(is_certificate(path), path, path.read_bytes()[:80])


def expect_refused(room, run, note):
    """Expects status 6, nothing said, and this note."""
    expect(run == (6, b"", note), run, note)


def expect_said(run, note):
    """What is stored was refused after the search, and the report is said all the same."""
    expect(run[0] == 6 and run[1].startswith(b"report 1\n") and run[2] == note, run, note)


def free_name(room):
    expect_stored(room, room.solve(), room.path("p"))
    expect(room.made() == ["p"], room.made())


def link_to_a_file(room):
    room.path("kept").mkdir()
    room.path("kept/file").write_bytes(OLD)
    room.path("p").symlink_to("kept/file")
    expect_stored(room, room.solve(), room.path("kept/file"))
    expect(room.path("p").is_symlink() and os.listdir(room.path("kept")) == ["file"], room.made())


def link_to_a_link(room):
    room.path("file").write_bytes(b"")
    room.path("q").symlink_to(room.path("file"))
    room.path("p").symlink_to("q")
    expect_stored(room, room.solve(), room.path("file"))
    expect(room.path("p").is_symlink() and room.path("q").is_symlink() and room.made() == ["file", "p", "q"])


def link_to_another_text(room):
    room.path("p").symlink_to("g1.rules")
    before = room.path("g1.rules").read_bytes()
    expect_refused(room, room.solve(), b"p: " + LEFT)
    expect(room.path("g1.rules").read_bytes() == before and room.made() == ["p"])


def dangling_link(room):
    room.path("p").symlink_to("nothing")
    expect_refused(room, room.solve(), b"p: the link leads nowhere\n")
    expect(room.made() == ["p"], room.made())


def link_in_a_ring(room):
    room.path("p").symlink_to("q")
    room.path("q").symlink_to("p")
    run = room.solve()
    expect(run[:2] == (6, b"") and run[2].startswith(b"p: filesystem loop"), run)


def devices(room):
    run = room.solve("/dev/null")
    expect(run[0] == 0 and run[1].startswith(b"report 1\n") and run[2] == b"", run)
    room.path("p").symlink_to("/dev/null")
    run = room.solve()
    expect(run[0] == 0 and room.made() == ["p"], run)
    run = room.solve("/dev/full")
    expect_said(run, b"/dev/full: no storage space\n")


def pipe(room):
    os.mkfifo(room.path("p"))
    reader = subprocess.Popen(["cat", "p"], cwd=room.folder, stdout=subprocess.PIPE)
    run = room.solve()
    text = reader.communicate(timeout=SECONDS)[0]
    expect(run[0] == 0 and text.startswith(b"proof 1\n") and text.endswith(b"end\n"), run, text)


def standard_output(room):
    """Under `>` and `|` the certificate stands before the report, whole."""
    said = room.solve()[1]
    text = room.path("p").read_bytes()
    room.path("p").unlink()
    room.path("p").symlink_to("/dev/stdout")
    for name in ("p", "/dev/stdout", "/dev/fd/1", "/proc/self/fd/1"):
        for line in (f'"$P" solve g1.rules g1.demand {name} 10 > out; s=$?; cat out; exit $s',
                     f'"$P" solve g1.rules g1.demand {name} 10 | cat'):
            run = room.shell(line)
            expect(run == (0, text + said, b""), line, run)
    run = room.shell('"$P" solve g1.rules g1.demand p 10 >&-')
    expect_refused(room, run, b"p: the link leads nowhere\n")


def other_descriptor(room):
    run = room.shell('"$P" solve g1.rules g1.demand /dev/fd/3 10 3> out')
    expect_stored(room, run, room.path("out"))
    expect(room.made() == ["out"], room.made())


def read_only_file(room):
    room.path("p").write_bytes(OLD)
    room.path("p").chmod(0o444)
    expect_refused(room, room.solve(), b"p: the file is read-only, and was left alone\n")
    expect(room.path("p").read_bytes() == OLD and room.made() == ["p"])


def modes(room):
    for mode in (0o600, 0o640, 0o664, 0o666, 0o755, 0o200 | 0o400):
        room.path("p").write_bytes(OLD)
        room.path("p").chmod(mode)
        expect_stored(room, room.solve(), room.path("p"))
        expect(room.path("p").stat().st_mode & 0o7777 == mode, oct(room.path("p").stat().st_mode))
    room.path("p").unlink()
    old = os.umask(0o027)
    room.solve()
    os.umask(old)
    expect(room.path("p").stat().st_mode & 0o7777 == 0o640, oct(room.path("p").stat().st_mode))


def first_lines(room):
    for text in (b"", OLD, b"proof 2\n", b"proof 1\r\n"):
        room.path("p").write_bytes(text)
        expect_stored(room, room.solve(), room.path("p"))
    for text in (b"proof of my invention\n", b"proof 1", b"proof 3\n", b"proof 12\n", b"x"):
        room.path("p").write_bytes(text)
        expect_refused(room, room.solve(), b"p: " + LEFT)
        expect(room.path("p").read_bytes() == text and room.made() == ["p"])


def new_that_stands(room):
    room.path("p.new").write_bytes(b"mine")
    expect_stored(room, room.solve(), room.path("p"), b"p.new stands, and is left alone: p.new1 is written\n")
    room.path("p.new1").mkdir()
    room.path("p.new2").symlink_to("nothing")
    note = b"p.new to p.new2 stand, and are left alone: p.new3 is written\n"
    expect_stored(room, room.solve(), room.path("p"), note)
    expect(room.made() == ["p", "p.new", "p.new1", "p.new2"] and room.path("p.new").read_bytes() == b"mine")


def all_ten_stand(room):
    names = ["p.new", *(f"p.new{n}" for n in range(1, 10))]
    for name in names:
        room.path(name).write_bytes(name.encode())
    room.path("p").write_bytes(OLD)
    expect_refused(room, room.solve(), b"p.new to p.new9 stand, and were left alone\n")
    expect(room.made() == ["p", *names] and room.path("p").read_bytes() == OLD)
    expect(all(room.path(name).read_bytes() == name.encode() for name in names))


def names_too_long(room):
    expect_stored(room, room.solve("a" * 251), room.path("a" * 251))
    for length in (252, 255):
        name = "b" * length
        expect_refused(room, room.solve(name), f"{name}.new: invalid filename\n".encode())
    run = room.solve("b" * 256)
    expect_refused(room, run, b"b" * 256 + b": invalid filename\n")


def no_folder(room):
    expect_refused(room, room.solve("none/p"), b"none/p.new: no such folder\n")
    expect_refused(room, room.solve("."), b".: is a directory\n")


def of_other_commands(room):
    """`make` and `curve` ask as `solve` does, `curve` for each point."""
    room.path("m.new").write_bytes(b"mine")
    run = room.run(["make", "7", "m", "1"])
    expect(run[0] in (0, 8) and run[2].startswith(b"m.new stands, and is left alone: m.new1 is written\n"), run)
    expect(room.run(["make", "7", "none/m", "1"]) == (6, b"", b"none/m.new: no such folder\n"))
    room.path("c.2").symlink_to("nothing")
    run = room.run(["curve", "g1.rules", "g1.demand", "c", "10"])
    expect(run == (6, b"", b"c.2: the link leads nowhere\n"), run)
    expect("c.1" not in room.made() and "c.1.new" not in room.made(), room.made())


def before_the_search(room):
    """A folder that takes nothing refuses a long search at once."""
    long_days(room)
    began = time.monotonic()
    words = [*LONG[:3], "none/p", LONG[4]]
    expect_refused(room, room.run(words), b"none/p.new: no such folder\n")
    expect(time.monotonic() - began < 20, "it took so long")


def closed_streams(room):
    room.solve()
    check = '"$P" check g1.rules g1.demand p'
    yes = room.shell(check)
    expect(yes[0] == 0, yes)
    expect(room.shell(check + " >&-") == (6, b"", b"standard output: not open\n"))
    expect(room.shell(check + " > /dev/full") == (6, b"", b"standard output: no storage space\n"))
    expect(room.shell(check + " 2>&-") == yes)
    expect(room.shell(check + " <&- 2>&-") == yes)
    expect(room.shell('"$P" check none g1.demand p 2>&-') == (6, b"", b""))
    expect(room.shell('"$P" check none g1.demand p >&- 2>&-') == (6, b"", b""))
    solve = '"$P" solve g1.rules g1.demand p 10'
    text = room.path("p").read_bytes()
    for closed in ("2>&-", "<&- 2>&-"):
        room.path("p").write_bytes(OLD)
        run = room.shell(f"{solve} {closed}")
        expect(run[0] == 0 and run[2] == b"" and room.path("p").read_bytes() == text, run)
    room.path("p").write_bytes(OLD)
    run = room.shell(solve + " >&-")
    expect(run == (6, b"", b"standard output: not open\n") and room.path("p").read_bytes() == text, run)
    room.path("p.new").write_bytes(b"mine")
    run = room.shell(solve + " 2>&-")
    expect(run[0] == 0 and room.path("p").read_bytes() == text and room.path("p.new").read_bytes() == b"mine", run)


def words_that_are_not_text(room):
    for words in ([b"explain", b"g1.rules", b"\xff"], [b"\xff"]):
        run = room.run(words)
        expect(run[0] == 2 and run[1].startswith(b"words: "), run)
        expect(run[2].startswith(b"a word of the command line is not UTF-8\n"), run)


def as_nobody(room):
    """What root may do anyway: a folder without rights."""
    if os.geteuid() != 0:
        return "wants root, to become another user"
    folder = room.path("shut")
    folder.mkdir()
    folder.chmod(0o755)
    folder.joinpath("p").write_bytes(OLD)
    for above in (room.folder, room.folder.parent):
        above.chmod(0o755)
    # The program may lie where only root may look.
    program = room.path("program")
    shutil.copy(room.program, program)
    program.chmod(0o755)
    other = Room.__new__(Room)
    other.program, other.folder, other.given = program, room.folder, room.given
    for name in ("shut/q", "shut/p"):
        run = other.run(["solve", "g1.rules", "g1.demand", name, "10"], user=NOBODY, group=NOBODY)
        expect_refused(room, run, f"{name}.new: permission denied\n".encode())
    expect(os.listdir(folder) == ["p"] and folder.joinpath("p").read_bytes() == OLD)


def full_disk(room):
    """A certificate stays on a full disk, also behind a link."""
    if os.geteuid() != 0:
        return "wants root, for a mount"
    disk = room.path("disk")
    disk.mkdir()
    mounted = subprocess.run(["mount", "-t", "tmpfs", "-o", "size=64k", "tmpfs", disk], capture_output=True)
    if mounted.returncode != 0:
        return "no tmpfs can be mounted here"
    try:
        disk.joinpath("p").write_bytes(OLD)
        room.path("link").symlink_to("disk/p")
        fill = disk / "fill"
        with open(fill, "wb", buffering=0) as file:
            try:
                while True:
                    file.write(b"x" * 4096)
            except OSError:
                pass
        for name in ("disk/p", "link"):
            run = room.solve(name)
            new = "disk/p.new" if name == "disk/p" else str(disk.resolve() / "p.new")
            expect(run[0] == 6 and run[2] == f"{new}: no storage space\n".encode(), run)
            expect(disk.joinpath("p").read_bytes() == OLD and sorted(os.listdir(disk)) == ["fill", "p"])
        fill.unlink()
        expect_stored(room, room.solve("link"), disk / "p")
        expect(room.path("link").is_symlink() and os.listdir(disk) == ["p"])
    finally:
        subprocess.run(["umount", disk], check=True)


def interrupted(room):
    """Ctrl-C in a search, and then the same call, shorter."""
    long_days(room)
    room.path("p").write_bytes(OLD)
    run = subprocess.Popen([room.program, *LONG], cwd=room.folder, stdout=subprocess.PIPE, stderr=subprocess.PIPE)
    time.sleep(2)
    if run.poll() is not None:
        return f"the search ended within two seconds, with status {run.returncode}"
    run.send_signal(signal.SIGINT)
    run.communicate(timeout=SECONDS)
    expect(run.returncode == -signal.SIGINT, run.returncode)
    expect(room.path("p").read_bytes() == OLD and room.made() == ["p"], room.made())
    again = room.run([*LONG[:4], "1"])
    expect(again[0] in (0, 8) and is_certificate(room.path("p")), again)


def killed(room):
    """Killed at each system call of a run: the old certificate or the whole new one stands, and the same call works."""
    if shutil.which("strace") is None:
        return "wants strace"
    solve = ["solve", "g1.rules", "g1.demand", "p", "10"]
    room.path("p").write_bytes(OLD)
    traced = room.path("trace")
    done = subprocess.run(["strace", "-o", traced, room.program, *solve], cwd=room.folder, capture_output=True)
    if done.returncode != 0:
        return "strace does not run here"
    text = room.path("p").read_bytes()
    calls = re.findall(r"^(\w+)\(", traced.read_text(), re.M)
    traced.unlink()
    counts, ends = {}, {"old": 0, "new": 0}
    for call in calls:
        counts[call] = counts.get(call, 0) + 1
        if call == "execve":
            continue
        room.path("p").write_bytes(OLD)
        how = f"inject={call}:signal=SIGKILL:when={counts[call]}"
        subprocess.run(["strace", "-o", "/dev/null", "-e", how, room.program, *solve], cwd=room.folder,
                       capture_output=True, timeout=SECONDS)
        stands = room.path("p").read_bytes()
        expect(stands in (OLD, text), call, counts[call], stands)
        ends["old" if stands == OLD else "new"] += 1
        left = [name for name in room.made() if name != "p"]
        expect(left in ([], ["p.new"]), call, left)
        again = room.solve()
        expect(again[0] == 0 and room.path("p").read_bytes() == text, call, again)
        for name in left:
            room.path(name).unlink()
    print(f"  {sum(ends.values())} kills: {ends['old']} left the old certificate, {ends['new']} the new one")


CASES = [free_name, link_to_a_file, link_to_a_link, link_to_another_text, dangling_link, link_in_a_ring, devices, pipe,
         standard_output, other_descriptor, read_only_file, modes, first_lines, new_that_stands, all_ten_stand,
         names_too_long, no_folder, of_other_commands, before_the_search, closed_streams, words_that_are_not_text,
         as_nobody, full_disk, interrupted, killed]


def main():
    program = program_path(given=sys.argv[1] if len(sys.argv) > 1 else None)
    for case in CASES:
        with tempfile.TemporaryDirectory() as name:
            skipped = case(Room(program, pathlib.Path(name) / "room"))
        told = f"skipped: {skipped}" if skipped else "as written"
        print(f"{case.__name__.replace('_', ' ')}: {told}", flush=True)


if __name__ == "__main__":
    main()

"""How the program ends: interrupted, with nobody reading, and what it opened until then."""
import os
import re
import resource
import signal
import subprocess
import time
import unittest
from pathlib import Path

import made
from program import ENVIRONMENT, LONGEST, PROGRAM, ProgramTest, every_outcome, lost, run, whole_outcomes

# The system's numbers of these calls on x86-64.
FSYNC, PREAD = ("74", "75"), ("17",)


def wait_until(true, seconds=20):
    end = time.monotonic() + seconds
    while not true():
        if time.monotonic() > end:
            raise AssertionError("this did not come to be in time")
        time.sleep(0.005)


def watches_for_interrupts(pid):
    caught = re.search(r"SigCgt:\s*(\w+)", Path(f"/proc/{pid}/status").read_text())
    return int(caught[1], 16) >> (signal.SIGINT - 1) & 1


def start(*words, **how):
    how = {"stdin": subprocess.DEVNULL, "stdout": subprocess.PIPE, "stderr": subprocess.PIPE, "env": ENVIRONMENT} | how
    return subprocess.Popen([*map(str, words)], **how)


def traced_child(tracer):
    """The program that strace runs, once it runs; before that strace has a child or two of its own."""
    found = []

    def is_there():
        children = Path(f"/proc/{tracer.pid}/task/{tracer.pid}/children").read_text().split()
        found[:] = [int(child) for child in children if first_line(f"/proc/{child}/comm") == PROGRAM.name]
        return found

    wait_until(is_there)
    return found[0]


def first_line(path):
    """Of a file that may be gone."""
    try:
        return Path(path).read_text().splitlines()[0]
    except (OSError, IndexError):
        return ""


def is_in(pid, calls, path):
    """Whether a thread of the program is just in one of these calls on this file."""
    now = [first_line(thread / "syscall").split() for thread in Path(f"/proc/{pid}/task").iterdir()]
    files = [call[1] for call in now if call and call[0] in calls]
    return any(os.path.realpath(f"/proc/{pid}/fd/{int(file, 16)}") == os.path.realpath(path) for file in files)


def held(calls, path, *words):
    """Starts the program under strace, which holds each thread for a second in its first of these calls on this file; both, once one is there."""
    names = {FSYNC: "fsync,fdatasync", PREAD: "pread64"}[calls]
    tracer = start("strace", "-f", "-qq", "-o", "/dev/null", "-P", path, "-e", f"trace={names}", "-e",
                   f"inject={names}:delay_enter=1000000:when=1", PROGRAM, *words)
    child = traced_child(tracer)
    wait_until(lambda: is_in(child, calls, path))
    return tracer, child


class Interrupted(ProgramTest):
    def test_survey_tells_what_it_counted_so_far(self):
        path = self.file("holes.db", made.superblock(1).stored)
        os.truncate(path, 64 << 30)
        process = start(PROGRAM, "survey", path, "--json", "--svg", self.folder / "holes.svg")
        wait_until(lambda: (self.folder / "holes.svg.part").exists() and watches_for_interrupts(process.pid))
        time.sleep(0.3)
        process.send_signal(signal.SIGINT)
        out, err = process.communicate(timeout=LONGEST)
        self.assertEqual((process.returncode, err.decode().splitlines()[-1]), (130, "lumeviqo: interrupted"))
        self.assertIn(b'"interrupted":true', out)
        self.assertEqual(self.left(), ["holes.db"])


    def test_what_was_ignored_stays_ignored(self):
        """As under nohup."""
        path = self.file("every.db", every_outcome())
        process = start(PROGRAM, "survey", path, "--threads", 1, preexec_fn=lambda: signal.signal(signal.SIGHUP, signal.SIG_IGN))
        wait_until(lambda: process.poll() is not None or watches_for_interrupts(process.pid))
        process.send_signal(signal.SIGHUP)
        out, _ = process.communicate(timeout=LONGEST)
        self.assertEqual((process.returncode, out), (1, run("survey", path).out))


class MendEnds(ProgramTest):
    """However `mend` ends, OUT is whole or not there."""

    def setUp(self):
        super().setUp()
        self.data = made.joined(whole_outcomes())
        bad = {4: [2], 12: [0]}
        self.given = ["first.img", "first.map", "second.img"]
        self.words = ["mend", self.file("first.img", lost(self.data, bad)), "--map", self.map("first.map", len(self.data), bad),
                      "--copy", self.file("second.img", self.data), "-o", self.folder / "out.db"]

    def while_it_syncs(self, act):
        """Acts while the program is held where it syncs OUT.part; status and standard error."""
        tracer, child = held(FSYNC, self.folder / "out.db.part", *self.words)
        act(child)
        _, err = tracer.communicate(timeout=LONGEST)
        return tracer.returncode, err.decode()

    def test_interrupted(self):
        status, err = self.while_it_syncs(lambda child: os.kill(child, signal.SIGINT))
        self.assertEqual((status, err, self.left()), (130, "lumeviqo: interrupted: no file was written\n", self.given))

    def test_a_page_that_was_changed_behind_its_back(self):
        part = self.folder / "out.db.part"

        def change(_):
            with open(part, "r+b") as file:
                file.seek(4 * made.PAGE + 100)
                file.write(b"x")

        status, err = self.while_it_syncs(change)
        self.assertEqual(status, 3)
        self.assertTrue(err.startswith(f"lumeviqo: {part}: page 4 "), err)
        self.assertEqual(self.left(), sorted(self.given + ["out.db.part"]))

    def test_an_out_that_came_to_be_meanwhile(self):
        out = self.folder / "out.db"
        status, err = self.while_it_syncs(lambda _: out.write_text("mine"))
        message = f"lumeviqo: {out}: it came to be meanwhile, and nothing is written over: what was made is left as {out}.part: rename that\n"
        self.assertEqual((status, err, out.read_text()), (2, message, "mine"))
        self.assertEqual(self.left(), sorted(self.given + ["out.db", "out.db.part"]))
        self.assertTrue(Path(f"{out}.part").read_bytes() == self.data)

    def test_an_out_that_came_to_be_meanwhile_leaves_its_map_too(self):
        out, new = self.folder / "out.db", self.folder / "new.map"
        self.words += ["--new-map", new]
        status, err = self.while_it_syncs(lambda _: out.write_text("mine"))
        self.assertEqual((status, err.endswith(f"{out}.part: rename that; its map is left as {new}.part\n")), (2, True), err)
        self.assertEqual(self.left(), sorted(self.given + ["out.db", "out.db.part", "new.map.part"]))

    def test_a_new_map_that_came_to_be_meanwhile(self):
        """The mended file is made, so the status is not 2."""
        new = self.folder / "new.map"
        self.words += ["--new-map", new]
        status, err = self.while_it_syncs(lambda _: new.write_text("mine"))
        message = f"lumeviqo: {new}: it came to be meanwhile, and nothing is written over: what was made is left as {new}.part: rename that\n"
        self.assertEqual((status, err, new.read_text()), (1, message, "mine"))
        self.assertEqual(self.left(), sorted(self.given + ["out.db", "new.map", "new.map.part"]))
        self.assertTrue((self.folder / "out.db").read_bytes() == self.data)

    def test_a_name_that_can_not_be_given(self):
        """A file system that neither renames without replacing nor gives a file two names."""
        out = self.folder / "out.db"
        ran = subprocess.run(["strace", "-f", "-qq", "-o", "/dev/null", "-e", "inject=renameat2:error=EINVAL", "-e", "inject=link,linkat:error=EPERM",
                              PROGRAM, *map(str, self.words)], capture_output=True, timeout=LONGEST)
        message = f"lumeviqo: {out}: this name can't be given (Operation not permitted): what was made is left as {out}.part: rename that\n"
        self.assertEqual((ran.returncode, ran.stderr.decode()), (2, message))
        self.assertEqual(self.left(), sorted(self.given + ["out.db.part"]))

    def test_a_file_system_that_replaces_when_it_renames(self):
        subprocess.run(["strace", "-f", "-qq", "-o", "/dev/null", "-e", "inject=renameat2:error=EINVAL", PROGRAM, *map(str, self.words)],
                       capture_output=True, check=True, timeout=LONGEST)
        self.assertEqual(self.left(), sorted(self.given + ["out.db"]))

    def test_a_full_disc(self):
        """A limit of 64 KiB on the file stands for a disc that is full."""
        limit = 64 * 1024

        def limited():
            resource.setrlimit(resource.RLIMIT_FSIZE, (limit, limit))
            signal.signal(signal.SIGXFSZ, signal.SIG_IGN)

        ran = run(*self.words, preexec_fn=limited)
        self.assertEqual((ran.status, self.left()), (2, self.given))
        self.assertEqual(ran.err, f"lumeviqo: {self.folder}/out.db.part: File too large: make room, or write to another disc\n")

    def test_a_closed_pipe(self):
        ear, mouth = os.pipe()
        os.close(ear)
        ran = run(*self.words, stdout=mouth)
        os.close(mouth)
        self.assertEqual((ran.status, ran.err, self.left()), (2, "", self.given))

    def test_a_full_standard_output(self):
        """At the first line of a page, and, where no page has one, at the last line of all."""
        whole = ["mend", self.folder / "second.img", "--copy", self.folder / "first.img", "-o", self.folder / "out.db"]
        for words in (self.words, self.words + ["--new-map", self.folder / "new.map"], whole):
            with open("/dev/full", "wb") as full:
                ran = run(*words, stdout=full)
            self.assertEqual((ran.status, self.left()), (2, self.given))
            self.assertEqual(ran.err, "lumeviqo: standard output: No space left on device: make room, or write to another disc\n")

    def test_each_block_is_read_afresh_once(self):
        trace, part = self.folder / "trace", self.folder / "out.db.part"
        subprocess.run(["strace", "-f", "-qq", "-o", trace, "-P", part, "-e", "trace=pread64", PROGRAM, *map(str, self.words)],
                       capture_output=True, check=True, timeout=LONGEST)
        reads = re.findall(r"pread64\(\d+, .*, (\d+), (\d+)\)", trace.read_text())
        self.assertEqual(reads, [(str(made.BLOCK * made.PAGE), "0")])


class Shrinking(ProgramTest):
    def test_a_file_that_becomes_shorter_meanwhile(self):
        path = self.file("every.db", every_outcome())
        tracer, _ = held(PREAD, path, "survey", path)
        os.truncate(path, 20 * made.PAGE)
        out, err = tracer.communicate(timeout=LONGEST)
        words = "it became shorter while it was read: let whatever writes to it end, and begin again"
        self.assertEqual((tracer.returncode, err.decode(), out), (2, f"lumeviqo: {path}: {words}\n", b""))


class ClosedPipes(ProgramTest):
    def test_end_it_quietly(self):
        path = self.file("every.db", every_outcome())
        for words in (["survey", path], ["survey", path, "--csv"], ["survey", path, "--json"], ["page", path, 1], ["rows", path],
                      ["rows", path, "--json"], ["completions", "bash"], ["man"]):
            with self.subTest(words[:1] + words[2:]):
                ear, mouth = os.pipe()
                os.close(ear)
                ran = run(*words, "-q", stdout=mouth)
                os.close(mouth)
                self.assertEqual((ran.status, ran.err), (0, ""))

    def test_in_the_middle_too(self):
        path = self.file("many.db", made.joined(every_outcome()[:320]) * 8)
        process = start(PROGRAM, "rows", path)
        process.stdout.read(100)
        process.stdout.close()
        self.assertEqual((process.stderr.read(), process.wait(LONGEST)), (b"", 0))
        process.stderr.close()


class Opened(ProgramTest):
    """What the program opens, by strace: files that it is given for reading only, and new ones as new."""

    def opened(self, *words):
        trace = self.folder / "trace"
        subprocess.run(["strace", "-f", "-o", trace, "-e", "trace=open,openat,openat2,creat,truncate,unlink,unlinkat,rename,renameat,renameat2",
                        PROGRAM, *map(str, words)], capture_output=True, timeout=LONGEST)
        lines = [line for line in trace.read_text().splitlines() if str(self.folder) in line]
        trace.unlink()
        return lines

    def test_files_are_opened_for_reading_only(self):
        data = made.joined(whole_outcomes())
        path = self.file("first.img", lost(data, {4: [2]}))
        first, second = self.map("first.map", len(data), {4: [2]}), self.map("second.map", len(data), {8: [2]})
        copy = self.file("second.img", lost(data, {8: [2]}))
        given = [path, copy, first, second]
        commands = [["survey", path, "--map", first, "--csv"], ["page", path, 4, "--map", first], ["rows", path, "--map", first],
                    ["mend", path, "--map", first, "--copy", copy, "--copy-map", second, "-o", self.folder / "out.db"]]
        for words in commands:
            with self.subTest(words[0]):
                lines = self.opened(*words)
                for name in [word for word in words if word in given]:
                    uses = [line for line in lines if f'"{name}"' in line]
                    self.assertTrue(uses)
                    for line in uses:
                        self.assertIn("O_RDONLY", line)
                        self.assertNotRegex(line, "O_WRONLY|O_RDWR|O_CREAT|O_TRUNC|O_APPEND|creat|truncate|unlink|rename")

    def test_a_new_file_is_created_new_and_renamed_without_replacing(self):
        data = made.joined(whole_outcomes())
        path, copy = self.file("first.img", lost(data, {4: [2]})), self.file("second.img", data)
        out = self.folder / "out.db"
        lines = self.opened("mend", path, "--map", self.map("first.map", len(data), {4: [2]}), "--copy", copy, "-o", out)
        writes = [line for line in lines if re.search("O_WRONLY|O_RDWR|O_CREAT", line)]
        self.assertEqual(len(writes), 1, writes)
        self.assertRegex(writes[0], rf'"{out}\.part", O_RDWR\|O_CREAT\|O_EXCL')
        # Where threads end meanwhile strace writes what the call answers on a line of its own.
        self.assertRegex("\n".join(lines), rf'renameat2\(AT_FDCWD, "{out}\.part", AT_FDCWD, "{out}", RENAME_NOREPLACE(\) = 0| <unfinished)')
        self.assertEqual(self.left(), ["first.img", "first.map", "out.db", "second.img"])


if __name__ == "__main__":
    unittest.main()

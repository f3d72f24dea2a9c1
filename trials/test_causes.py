"""What standard error tells after the line of a disk: the path, and why a call to the file has failed or what is wrong with
it. The first lines and the statuses are tried in test_statuses.py and test_faults.py."""

import os
import shutil
import socket
import subprocess
import time
from pathlib import Path

from disks import EMPTY, disk_of, slot
from known import LOOP, TWO
from program import PATIENCE, PROGRAM, Server, Trial, grows_to, run
from shim import shimmed, was_refused

NO_DISK = "the file is no disk; `icserve create --disk F` makes a new file F one"
IS_TEXT = "the file is a text, and no disk; `icserve create --disk F` makes a new file F one"
NOT_AS_LEFT = "something else has changed the file, or it was copied in part"


class Causes(Trial):
    def tells(self, ran, line, after):
        """Fails unless a run ended with this line on standard error, and this one after it."""
        self.equals(ran.command, "standard error", (f"icserve: {line}\n", after + "\n"), (ran.err.decode(), ran.after.decode()))

    def isnt_opened(self, path, cause, **how):
        """Fails unless the disk of this path is neither served nor dumped, with `device` and this cause, and nothing is printed."""
        for word in ("serve", "attend", "dump"):
            ran = run(word, "--disk", path, given="list", **how)
            self.equals(ran.command, "status and standard output", (3, b""), (ran.status, ran.out))
            self.tells(ran, "device", f"{path}: {cause}")

    def create(self, path, cause, *words, **how):
        """Fails unless no disk is made in the file of this path, with `device` and this cause."""
        ran = run("create", "--disk", path, *words, **how)
        self.equals(ran.command, "status", 3, ran.status)
        self.tells(ran, "device", f"{path}: {cause}")

    def test_a_file_or_a_folder_is_missing(self):
        self.isnt_opened(self.room / "missing", "open: no such file or folder")
        self.isnt_opened("", "open: no such file or folder")
        self.create(self.room / "no/folder", "its folder: open: no such file or folder")

    def test_a_folder(self):
        self.isnt_opened(self.room, "open: is a folder")
        self.create(self.room, "open: is a folder")

    def test_a_name_that_is_no_folders_or_too_long_or_a_link_to_itself(self):
        disk = self.disk()
        self.isnt_opened(disk / "more", "open: a name on the way to it is no folder's")
        self.create(self.room / ("x" * 300), "open: the name is too long")
        os.symlink(self.room / "link", self.room / "link")
        self.isnt_opened(self.room / "link", "open: too many symbolic links")

    def test_no_rights(self):
        how = self.without_rights()
        os.chmod(self.room, 0o755)
        path = self.disk()
        for mode in (0o444, 0o222, 0o000):
            os.chmod(path, mode)
            self.isnt_opened(path, "open: no rights", **how)
            self.create(path, "open: no rights", **how)

    def test_a_folder_that_cant_be_read_is_named_and_no_file_is_made_there(self):
        """With `create` the folder is synced, and for that it is opened."""
        how = self.without_rights()
        folder = self.room / "folder"
        folder.mkdir()
        os.chmod(folder, 0o333)
        self.create(folder / "disk", "its folder: open: no rights", **how)
        os.chmod(folder, 0o755)
        self.equals(f"create --disk {folder}/disk", "the files in the folder", [], os.listdir(folder))

    def test_another_server_has_it_open(self):
        """Each word that locks a disk says so by a line and a status of its own."""
        path = self.disk()
        (self.room / "lines").write_bytes(b"")
        words = [["create"], ["create", "--overwrite"], ["serve"], ["attend"], ["dump"], ["batch", self.room / "lines"]]
        with Server(path) as server:
            self.answers(server, "list", "jobs")
            for word, *more in words:
                ran = run(word, "--disk", path, *more, given="list")
                self.equals(ran.command, "status and standard output", (6, b""), (ran.status, ran.out))
                self.tells(ran, "locked", f"{path}: lock: another process has it open")
            self.ends(server)
        self.serves(path, "list", ["jobs"])

    def test_a_device_a_pipe_and_a_socket_are_told_at_once(self):
        os.mkfifo(self.room / "pipe")
        os.symlink(self.room / "pipe", self.room / "link")
        with socket.socket(socket.AF_UNIX) as bound:
            bound.bind(str(self.room / "socket"))
        devices = [(it, "is a device") for it in ("/dev/full", "/dev/null", "/dev/zero")]
        pipes = [(self.room / it, "is a pipe") for it in ("pipe", "link")]
        for path, cause in (*devices, *pipes, (self.room / "socket", "is a socket")):
            self.isnt_opened(path, f"open: {cause}", seconds=20)
            self.create(path, f"open: {cause}", seconds=20)
            self.create(path, f"open: {cause}", "--overwrite", seconds=20)

    def test_a_program_that_runs(self):
        program = shutil.copy(PROGRAM, self.room / "icserve")
        with Server(self.disk(), program=program) as server:
            self.answers(server, "list", "jobs")
            self.isnt_opened(program, "open: is a program that runs")
            self.ends(server)

    def test_a_file_that_may_grow_no_further(self):
        self.create(self.room / "new", "write: the file may grow no further", **grows_to(100))
        path = self.disk()
        ran = run("serve", "--disk", path, given=f"submit two {TWO.text}", **grows_to(100))
        self.equals(ran.command, "status", 4, ran.status)
        self.tells(ran, "device", f"{path}: write: the file may grow no further")
        script = self.room / "script"
        script.write_text(f"submit two {TWO.text}\n")
        ran = run("attend", "--disk", path, script, **grows_to(100))
        self.equals(ran.command, "status", 4, ran.status)
        self.tells(ran, "device", f"{path}: write: the file may grow no further")

    def test_bytes_of_a_path_that_are_not_printable_are_shown_as_question_marks(self):
        """The third name has a C1 control, CSI, which some terminals act on."""
        for name, shown in (("\x1b[31m\n\x7f", "?[31m??"), ("ä~", "??~"), ("\x9b2J\x80\x9f", "??2J????")):
            ran = run("serve", "--disk", self.room / name, given="list")
            self.tells(ran, "device", f"{self.room}/{shown}: open: no such file or folder")

    def test_each_call_that_goes_wrong_is_told_with_its_reason(self):
        """The shim lets the n-th call fail: a write for want of room, all others by an error of input or output."""
        log, told, number = self.room / "log", set(), 0
        while True:
            number += 1
            path = self.room / "jobs.disk"
            path.write_bytes(disk_of(slot(1, EMPTY)))
            ran = run("serve", "--disk", path, given=f"submit two {TWO.text}", env=shimmed(f"disk {number} once", log))
            if not was_refused(log):
                break
            if ran.after:
                told.add(ran.after.decode().removeprefix(f"{path}: ").rstrip("\n"))
        calls = {f"{call}: input/output error of the device" for call in ("open", "lock", "length", "seek", "read", "sync")}
        self.equals(ran.command, "what was told", {"write: no room left on the device", *calls}, told)

    def test_a_file_that_is_no_disk(self):
        path = self.room / "file"
        for data, words in ((b"", NO_DISK), (b"a text\n", IS_TEXT), (bytes(5_000_000), NO_DISK)):
            path.write_bytes(data)
            for word in ("serve", "attend", "dump"):
                self.tells(run(word, "--disk", path, given="list"), "no slot", f"{path}: {words}")

    def test_a_disk_that_something_else_has_changed(self):
        path = self.room / "file"
        for line, second in (("two alike", slot(1, EMPTY)), ("damaged", slot(2, b"no table"))):
            path.write_bytes(disk_of(slot(1, EMPTY), second))
            for word in ("serve", "attend", "dump"):
                self.tells(run(word, "--disk", path, given="list"), line, f"{path}: {NOT_AS_LEFT}")

    def isnt_kept(self, change):
        """Fails unless a server whose file is changed so after a keep refuses the next one, and says that the file is gone."""
        path = self.disk()
        with Server(path) as server:
            self.answers(server, f"submit two {TWO.text}", "accepted")
            self.answers(server, "run 1", "ran 1")
            change(path)
            server.send("run 1")
            ran = server.end()
        self.equals(ran.command, "status and answers", (4, b"accepted\nran 1\n"), (ran.status, ran.out))
        self.tells(ran, "device", f"{path}: sync: the file is gone")
        path.unlink(missing_ok=True)

    def test_a_disk_whose_file_is_gone_is_refused_at_the_next_keep(self):
        """It is deleted, or another file takes its place. A file that has another name too, to which a link leads, or that was
        moved, isn't gone."""
        other, folder = self.room / "other", self.room / "folder"
        self.isnt_kept(lambda path: path.unlink())

        def replaced(path):
            shutil.copy(path, other)
            os.rename(other, path)

        self.isnt_kept(replaced)
        folder.mkdir()
        path = self.disk("folder/jobs.disk")
        os.symlink(path, self.room / "link")
        os.link(path, self.room / "name")
        for name in (path, self.room / "link", self.room / "name", f"{self.room}/folder/../folder/jobs.disk"):
            self.serves(name, ["list", f"submit two {TWO.text}", "cancel two"], ["jobs", "accepted", "ok"])
        with Server(path) as server:
            self.answers(server, f"submit two {TWO.text}", "accepted")
            os.rename(path, other)
            self.answers(server, "run 1", "ran 1")
            self.ends(server)
        self.serves(other, ["list"], ["jobs two:running:1"])

    def test_scripts_whose_disk_is_gone_end_by_device_whoever_learns_it_first(self):
        """One client's keep fails, and then the other client, which may be told first, is stopped by a broken book."""
        scripts = []
        for name in ("one", "two"):
            scripts.append(self.room / name)
            scripts[-1].write_text(f"submit {name} {LOOP.text}\n" + f"pause {name}\nresume {name}\n" * 10_000)
        for number in range(5):
            path = self.disk(f"{number}.disk")
            empty = path.read_bytes()
            pipes = {"stdin": subprocess.DEVNULL, "stdout": subprocess.PIPE, "stderr": subprocess.PIPE}
            with subprocess.Popen([PROGRAM, "attend", "--disk", path, *scripts], **pipes) as started:
                end = time.monotonic() + PATIENCE
                while path.read_bytes() == empty:
                    self.assertLess(time.monotonic(), end, "nothing is kept")
                    time.sleep(0.01)
                path.unlink()
                out, told = started.communicate(timeout=PATIENCE)
            self.equals(started.args, "status and what is told", (4, f"icserve: device\n{path}: sync: the file is gone\n"), (started.returncode, told.decode()))
            self.equals(started.args, "whether a client was stopped by it", True, b"stopped device" in out or b"stopped broken" in out)

    def test_a_kept_reduction_whose_file_is_gone_ends_at_the_next_keep(self):
        """Either of its two files."""
        for place in ("", ".2"):
            path = self.room / f"net{place}.keep"
            pipes = {"stdin": subprocess.PIPE, "stdout": subprocess.PIPE, "stderr": subprocess.PIPE}
            with subprocess.Popen([PROGRAM, "reduce", "--keep", path, "--seconds", "1"], **pipes) as started:
                started.stdin.write(LOOP.text.encode())
                started.stdin.close()
                end = time.monotonic() + PATIENCE
                while not (second := Path(f"{path}.2")).exists() or not second.stat().st_size:
                    self.assertLess(time.monotonic(), end, "no second file is made")
                    time.sleep(0.01)
                os.unlink(f"{path}{place}")
                told = started.stderr.read().decode()
            self.equals(started.args, "what is told", f"icserve: device\n{path}{place}: sync: the file is gone\n", told)
            # By 3 where the first keep hadn't ended.
            self.equals(started.args, f"status {started.returncode}", True, started.returncode in (3, 4))

    def test_a_file_of_a_reduction_that_is_taken_for_a_disk(self):
        """It is told what it is, and what goes on with it."""
        path = self.room / "net.keep"
        self.runs("reduce", "--keep", path, given="{A><B} <r|r=S(Z),A=B>", out=["<S(Z)|>"])
        is_it = "it is one of the two files of a reduction, and no disk: `icserve reduce --resume F` goes on with F, without .2"
        for name in (path, f"{path}.2"):
            for word in ("serve", "attend", "dump", "create"):
                ran = run(word, "--disk", name, given="list")
                self.equals(ran.command, "status and what is told", (3, f"{name}: {is_it}\n"), (ran.status, ran.after.decode()))

    def test_two_files_that_keep_no_reduction(self):
        """After the line of either refusal it is told what to do."""
        path = self.room / "net.keep"
        second = f"{path}.2"
        for name in (path, second):
            Path(name).write_bytes(bytes(17))
        none = f"{path}: no reduction is kept in it and in its second file, {second}: bring back a copy of both; "
        none += "after a stop in the first keep, give the same `--keep` again"
        self.tells(run("reduce", "--resume", path), "no slot", none)
        Path(path).unlink()
        Path(second).unlink()
        self.runs("reduce", "--keep", path, given="{A><B} <r|r=S(Z),A=B>", out=["<S(Z)|>"])
        for name in (path, second):
            held = Path(name).read_bytes()
            Path(name).write_bytes(held[:-1])
        changed = f"{path}: something else has changed it or its second file, {second}, or they were copied in part; "
        changed += f"copy both, then `--resume {path} --from-one-file` goes on with the one that is whole; "
        changed += "after a stop in the first keep, give the same `--keep` again"
        self.tells(run("reduce", "--resume", path), "damaged", changed)

    def test_nothing_is_told_after_other_lines(self):
        path = self.disk()
        overgrown = "{A><B(C(C(D)))} <|A=B(P)," + "C(" * 8187 + "D" + ")" * 8187 + "=Q>"
        for words, given in ((["once"], overgrown), (["serve", "--disk", path], "x" * 300_000)):
            ran = run(*words, given=given)
            self.equals(ran.command, "lines on standard error", (1, b""), (ran.err.count(b"\n"), ran.after))
        with subprocess.Popen([PROGRAM, "serve"], stderr=subprocess.PIPE) as started:
            self.equals("serve", "the words", b"error: ", started.communicate()[1][:7])

"""What trials share that compare the program with the model."""

import model_disk
from program import IN_MEMORY, Trial, as_bytes, as_lines, run, shown

ZEROS = bytes(65_536)


class ModelTrial(Trial):
    """A trial that asks the program and the model the same."""

    rooms = IN_MEMORY

    def setUp(self):
        super().setUp()
        self.path = self.room / "jobs.disk"

    def agree(self, ran, wanted):
        """Fails unless the program has ended as the model says."""
        self.ended(ran, wanted.out, wanted.err, wanted.status)

    def streamed(self, word, text):
        """A text to `settle` or `once`."""
        wanted = model_disk.settle(text) if word == "settle" else model_disk.once(text)
        self.agree(run(word, given=text), wanted)

    def new_disk(self):
        """The model's new disk, and the same in the file."""
        disk = model_disk.Disk()
        disk.create()
        self.lay(disk)
        return disk

    def lay(self, disk):
        """Lays the bytes of the model's disk into the file; what is zeros is left out."""
        with open(self.path, "wb") as file:
            for at in range(0, len(disk.content), len(ZEROS)):
                part = disk.content[at : at + len(ZEROS)]
                if part != ZEROS:
                    file.seek(at)
                    file.write(part)
            file.truncate(len(disk.content))

    def serve(self, disk, lines, *words, every=100, page=model_disk.PAGE_WEIGHT):
        """Lines served over the file and over the model's disk, which hold the same. What is answered must be, and then
        stand in the file, as the model says."""
        text = as_lines(lines)
        before = bytes(disk.content)
        wanted = model_disk.serve(disk, text, every, page)
        if page != model_disk.PAGE_WEIGHT:
            words += "--page-bytes", 1024 * page + 1023
        ran = run("serve", "--disk", self.path, "--every", every, *words, given=text)
        if (ran.out, ran.err, ran.status) != wanted:
            self.tell_line(ran, wanted, model_disk.Disk(before), text, every, page)
            self.agree(ran, wanted)
        self.same_file(ran.command, disk)
        return wanted

    def tell_line(self, ran, wanted, disk, text, every, page):
        """Fails with the first line that is answered otherwise, where there is one."""
        if wanted.status == 3 or ran.status == 3:
            return
        answers, server = ran.out.split(b"\n"), model_disk.Server(disk, every, page)
        for place, line in enumerate(model_disk.lines_of(text), 1):
            try:
                answer = server.answer(line)
            except model_disk.Ended:
                return
            if answer is None:
                continue
            came = answers.pop(0) if answers else b"(nothing)"
            if came != answer.encode():
                self.agrees(ran.command, f"line {place}: {shown(line)}", answer, came)

    def same_file(self, command, disk):
        """Fails unless the file has the bytes of the model's disk."""
        held = self.path.read_bytes()
        if held != disk.content:
            self.agrees(command, "length of the file", str(len(disk.content)), str(len(held)))
            self.agrees(command, "the file", as_bytes(disk.content), held)

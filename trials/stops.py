"""What a server that was stopped, or that ended at a fault, may have left: compared with the small model of known.py."""

from known import answered, asked_for, listed
from program import IN_MEMORY, Trial


class Stops(Trial):
    rooms = IN_MEMORY

    def found(self, ran, disk, tables):
        """Opens the disk of a server that has ended, and fails unless one of these tables is found, whole: that one."""
        names = sorted({job.name for table in tables for job in table})
        came = self.asks(disk, ["list", *(f"fetch {it}" for it in names)])
        for table in tables:
            answers = [answered(table, f"fetch {it}", 1)[2] for it in names]
            if came == [listed(table), *answers]:
                return table
        wanted = [asked_for(it)[1] for it in tables[:9]]
        self.told(ran.command, f"what the next server finds, after {ran.out.count(10)} answers", f"one of {wanted}", came)

    def answers_to(self, lines, every, table=()):
        """The answers to lines over a table, None of a blank one."""
        for line in lines:
            _, table, answer = answered(table, line, every)
            yield answer

    def may_be_left(self, ran, lines, table, every, ahead=None):
        """Compares the answers of a server that has ended with the lines that it was given: the tables that it may have left.
        The last answer may be cut; so many lines may be done that aren't answered."""
        answers = ran.out.decode().split("\n")
        cut = answers.pop()
        tables = [table]
        for line in lines:
            kept, table, answer = answered(table, line, every)
            if answer is None:
                continue
            if answers:
                if answers[0] != answer:
                    self.told(ran.command, f"the answer to {line}", answer, answers[0])
                answers.pop(0)
                tables = [table]
                continue
            if not answer.startswith(cut):
                self.told(ran.command, f"the cut answer to {line}", answer, cut)
            cut = ""
            if ahead == 0:
                break
            ahead = ahead and ahead - 1
            tables += kept
        if answers:
            self.told(ran.command, "answers that no line asked for", [], answers)
        return tables

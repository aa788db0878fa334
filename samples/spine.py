# Spine scripts: how wide the spine of a book is, and a warning where a job runs
# past the counter of the casing-in machine.

def width(sheets, paper):
    # two boards, and the block with its glue
    return 2 * 2.5 + sheets * paper + 0.4

def warn(counts, job):
    if counts == 4095:
        print("counter full: start a new batch", job)
    elif counts > 4095:
        print("counter over: books are cased wrong", job)
    else:
        pass

class Job:
    def __init__(self, title, sheets):
        self.title = title
        self.sheets = sheets
        self.counts = 0

    def case(self, paper):
        self.counts = self.counts + 1
        warn(self.counts, self.title)
        return width(self.sheets, paper)

jobs = [Job("Ledger", 96), Job("Atlas", 240)]
for job in jobs:
    while job.counts < 4096 and not (job.title == ""):
        if job.case(0.11) < 6:
            break
print("done")

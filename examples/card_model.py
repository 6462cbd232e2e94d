"""A card model in plain Python, written from document 01 and in its order: one method for each item of the step list,
under the item's label. It is an example to read and to replace by your own; compare.py holds it against the proved
library after each entry.

It takes the text to be an accepted one. The library refuses bad texts (1 to 10, 16 and 17 of the table), and
compare.py asks it first. As a program the model runs the text on standard input and prints the report; from the
project's root:

    python3 examples/card_model.py < examples/three-cards.txt

A deliberate mistake can be chosen, here as a word behind the program's name. `split-a7` takes lines 7 and 8 of the
source as two steps: one reads V, and a later one judges Stat[lid] and the flag of what was read. In document 01 they
are one step, A7.
"""
import sys

MISTAKES = ("split-a7",)

UNDECIDED = -1

LARGEST = 4_294_967_295  # the largest word: add gives it where the sum would be more


class Plan:
    """A plan: P, N, B, S and C, the jobs as (card, priority), the opening words of each block, and the updates by their
    numbers.

    A move is (d, a, k): word d becomes word a plus k. A copy has 0 for k; a set has None for a and becomes k."""

    def __init__(self, text):
        """Reads the plan's lines of an accepted text; its entries are left to entries_of."""
        self.jobs, self.blocks, self.updates = [], [], {}
        for line in text.splitlines():
            kind, *fields = line.split("\t")
            numbers = [int(field) for field in fields]
            if kind == "plan":
                self.P, self.N, self.B, self.S, self.C = numbers
            elif kind == "job":
                self.jobs.append(tuple(numbers))
            elif kind == "block":
                self.blocks.append(numbers)
            elif kind == "update":
                [n] = numbers
                self.updates[n] = []
            elif kind == "copy":
                d, a = numbers
                self.updates[n].append((d, a, 0))
            elif kind == "set":
                d, k = numbers
                self.updates[n].append((d, None, k))
            elif kind == "add":
                d, a, k = numbers
                self.updates[n].append((d, a, k))


def entries_of(text):
    """The single entries of an accepted text in order, ("call", job, update) or ("step", card), each with the number of
    its line: a list of (line, entry). A line `step card n` is n entries `step card`."""
    entries = []
    for line, words in enumerate(text.splitlines(), start=1):
        kind, *numbers = words.split("\t")
        if kind == "call":
            entries.append((line, (kind, *map(int, numbers))))
        elif kind == "step":
            card, n = (*map(int, numbers), 1)[:2]  # without a count it is one step
            entries += [(line, (kind, card))] * n
    return entries


class Job:
    """The working record of job p. None stands where no item reads before another has written."""

    def __init__(self, p, card, priority):
        self.p, self.card, self.priority = p, card, priority
        self.update = None  # the update of its latest call
        self.place = None  # the label of the item it does next; None while it is not active
        self.round = self.lid = self.hid = self.wid = None
        self.ver = self.new_flag = None  # the V that it works with, and the flag that A12 is to store
        self.moves = self.at = None  # the moves of the update that it runs for hid, and which of them it is at
        self.reading = self.word = None  # whether it is at that move's read or at its write, and the word it took
        self.clear_marks()
        self.n = self.i = None  # the count of wid's row, and which of its blocks comes next
        self.listed = None  # the address, old and new block number read there

    def clear_marks(self):
        """No block is listed, and none is copied."""
        self.seen_as = {}  # the listed blocks in listing order, each with the block number that the run sees it by
        self.copied = []  # those of them that the run has made a copy of


class CardModel:
    """The machine's state for a plan, with the commits so far."""

    def __init__(self, plan, mistake=None):
        """The opening state."""
        P, N, B, S, C = plan.P, plan.N, plan.B, plan.S, plan.C
        self.plan, self.mistake = plan, mistake
        self.V = (0, False)  # a count and a flag
        self.Ann = [N] * P
        self.Stat = [N] * (N + 1)  # Stat[N] is N always
        self.Trans = [None] * N
        self.Bank = [N * C + k for k in range(B)]
        self.copy_list = [[p * C + k for k in range(C)] for p in range(N)]
        self.store = [[0] * S for _ in range(N * C)] + [words[:] for words in plan.blocks]  # by block number
        self.row = [[(0, 0, 0)] * B for _ in range(N)]  # each job's row: (address, old, new) of its listed blocks
        self.row_count = [0] * N  # how many of them it has published
        self.jobs = [Job(p, card, priority) for p, (card, priority) in enumerate(plan.jobs)]
        self.entries = 0  # how many entries have run
        self.commits = []  # (entry, job, update) in commit order

    # Entries.

    def entry(self, kind, first, second=None):
        """Judges one entry and runs it: 0, or the refusal's number from 11 to 14, which leaves the state as it was."""
        if kind == "call":
            if first >= self.plan.N or second not in self.plan.updates:
                return 11  # no such job or no such update
            job = self.jobs[first]
            if job.place is not None:
                return 12  # job active
            self.entries += 1
            job.update, job.place = second, "A1"
        else:
            if first >= self.plan.P:
                return 13  # card not below P
            active = [job for job in self.jobs if job.card == first and job.place is not None]
            if not active:
                return 14  # no job active on the card
            self.entries += 1
            job = max(active, key=lambda job: job.priority)
            job.place = getattr(self, job.place)(job)  # does the item, which answers the next one
        return 0

    # The step list. Each item is done for the active job p of highest priority on card R, and answers the next item.

    # A1: Trans[p] becomes the update.
    def A1(self, job):
        self.Trans[job.p] = job.update
        return "A2"

    # A2: Stat[p] becomes -1, round 0.
    def A2(self, job):
        self.Stat[job.p] = UNDECIDED
        job.round = 0
        return "A4"

    # A4: lid := Ann[R]; if N go to A14, else A7.
    def A4(self, job):
        job.lid = self.Ann[job.card]
        return "A14" if job.lid == self.plan.N else "A7"

    # A7 (7 and 8 together): ver := V. If Stat[lid] = N and (ver points elsewhere or its flag is false), A14. Else with
    # flag true H16, with false A10.
    def A7(self, job):
        job.ver = self.V
        if self.mistake == "split-a7":
            return "A8"
        return self.after_A7(job)

    def after_A7(self, job):
        count, flag = job.ver
        elsewhere = count % self.plan.P != job.card
        if self.Stat[job.lid] == self.plan.N and (elsewhere or not flag):
            return "A14"
        return "H16" if flag else "A10"

    # The mistake: line 8 as a step of its own. Document 01 has no such item.
    def A8(self, job):
        return self.after_A7(job)

    # A10 (10 and 11 together): hid := Ann[(count + 1) mod P]; new flag true exactly if hid and Stat[hid] are not N.
    # The count is ver's. Stat[N] is N, so that one comparison does for both.
    def A10(self, job):
        count, _ = job.ver
        job.hid = self.Ann[(count + 1) % self.plan.P]
        job.new_flag = self.Stat[job.hid] != self.plan.N
        return "A12"

    # A12: if V = ver, V becomes (count + 1, new flag). To A7.
    def A12(self, job):
        if self.V == job.ver:
            count, _ = job.ver
            self.V = (count + 1, job.new_flag)
        return "A7"

    # A14: Ann[R] := p. Round 0: round 1, to A4. Round 1: to A15.
    def A14(self, job):
        self.Ann[job.card] = job.p
        if job.round == 0:
            job.round = 1
            return "A4"
        return "A15"

    # A15: Ann[R] := N, job no longer active (its return).
    def A15(self, job):
        self.Ann[job.card] = self.plan.N
        return None  # no next item: not active

    # H16: hid := Ann[count mod P].
    def H16(self, job):
        count, _ = job.ver
        job.hid = self.Ann[count % self.plan.P]
        return "H17"

    # H17: Stat[hid] = N to A10; -1 to H21; else H32.
    def H17(self, job):
        status = self.Stat[job.hid]
        if status == self.plan.N:
            return "A10"
        return "H21" if status == UNDECIDED else "H32"

    # H21: take the update Trans[hid]; no blocks listed, no copy block used. Then its moves, then H22.
    def H21(self, job):
        job.moves = self.plan.updates[self.Trans[job.hid]]
        job.at = 0
        job.clear_marks()
        return self.begin_move(job)

    # A move begins: a set is one write; copy and add are a read, then a write. After the last move, H22.
    def begin_move(self, job):
        if job.at == len(job.moves):
            return "H22"
        _, a, _ = job.moves[job.at]
        job.reading = a is not None
        return "Check"

    # The block of the word that is read or written, and the word's place in it.
    def block_and_place(self, job):
        d, a, _ = job.moves[job.at]
        return divmod(a if job.reading else d, self.plan.S)

    # Check: if V differs from ver or Stat[hid] is not -1, clear the marks, go to H32.
    def Check(self, job):
        if self.V != job.ver or self.Stat[job.hid] != UNDECIDED:
            job.clear_marks()
            return "H32"
        return "List"

    # List the block with its bank number if not yet listed (else the step changes nothing). The address and the old
    # number go into p's row here, the new number at H22.
    def List(self, job):
        block, _ = self.block_and_place(job)
        if block not in job.seen_as:
            row, next_place = self.row[job.p], len(job.seen_as)
            _, _, new = row[next_place]
            row[next_place] = (block, self.Bank[block], new)
            job.seen_as[block] = self.Bank[block]
        return "Take" if job.reading else "Copy"

    # Take the word, from the block's copy once this run has made one: the last step of a read. The write follows.
    def Take(self, job):
        block, place = self.block_and_place(job)
        job.word = self.store[job.seen_as[block]][place]
        job.reading = False
        return "Check"

    # On the block's first write copy it into p's next copy block (else nothing).
    def Copy(self, job):
        block, _ = self.block_and_place(job)
        if block not in job.copied:
            copy_block = self.copy_list[job.p][len(job.copied)]
            self.store[copy_block] = self.store[job.seen_as[block]][:]
            job.seen_as[block] = copy_block
            job.copied.append(block)
        return "Write"

    # Write the word in that copy: the last step of a write. The next move follows.
    def Write(self, job):
        block, place = self.block_and_place(job)
        _, a, k = job.moves[job.at]
        self.store[job.seen_as[block]][place] = k if a is None else min(job.word + k, LARGEST)
        job.at += 1
        return self.begin_move(job)

    # H22: publish the new block numbers of all listed blocks (a block only read keeps its old one) and their count.
    def H22(self, job):
        row, count = self.row[job.p], len(job.seen_as)
        row[:count] = [(address, old, job.seen_as[address]) for address, old, _ in row[:count]]
        self.row_count[job.p] = count
        return "H25"

    # H25: if V = ver and Stat[hid] = -1, Stat[hid] := p (the update is now decided) and the replaced block numbers, in
    # listing order, take the first places of p's copy list. In either case clear the marks.
    def H25(self, job):
        if self.V == job.ver and self.Stat[job.hid] == UNDECIDED:
            self.Stat[job.hid] = job.p
            published = self.row[job.p][: len(job.seen_as)]
            replaced = [old for address, old, _ in published if address in job.copied]
            self.copy_list[job.p][: len(replaced)] = replaced
        job.clear_marks()
        return "H32"

    # H32: wid := Stat[hid]; -1 or N to A10.
    def H32(self, job):
        job.wid = self.Stat[job.hid]
        return "A10" if job.wid in (UNDECIDED, self.plan.N) else "H34"

    # H34: count n of wid's row; none to H42.
    def H34(self, job):
        job.n, job.i = self.row_count[job.wid], 0
        return "H42" if job.n == 0 else "H36"

    # For each listed block: H36, V not ver, to A10.
    def H36(self, job):
        return "A10" if self.V != job.ver else "H37"

    # H37, Stat[hid] = N, to A10.
    def H37(self, job):
        return "A10" if self.Stat[job.hid] == self.plan.N else "H38"

    # H38, read wid's address, old, new.
    def H38(self, job):
        job.listed = self.row[job.wid][job.i]
        return "H41"

    # H41, if V = ver and the bank entry is old, it becomes new.
    def H41(self, job):
        address, old, new = job.listed
        if self.V == job.ver and self.Bank[address] == old:
            self.Bank[address] = new
        job.i += 1
        return "H36" if job.i < job.n else "H42"

    # H42: if V = ver and Stat[hid] = wid, Stat[hid] := N (the commit). To A10.
    def H42(self, job):
        if self.V == job.ver and self.Stat[job.hid] == job.wid:
            self.Stat[job.hid] = self.plan.N
            self.commits.append((self.entries, job.hid, self.jobs[job.hid].update))
        return "A10"

    # The report.

    def report(self):
        """The report of the present state without its `end` line: a list of lines without their line feeds."""
        lines = [("commit", *commit) for commit in self.commits]
        lines += [("block", *self.store[number]) for number in self.Bank]
        lines += [("open", job.p, self.Stat[job.p]) for job in self.jobs if job.place is not None]
        return ["\t".join(map(str, line)) for line in lines]


def main():
    """Runs the accepted text on standard input and prints its report."""
    if sys.argv[1:] and sys.argv[1:] not in [[mistake] for mistake in MISTAKES]:
        sys.exit("card_model.py: the only argument is the name of a mistake: " + ", ".join(MISTAKES))
    text = sys.stdin.read()
    model = CardModel(Plan(text), *sys.argv[1:])
    number, end = 0, text.count("\n")
    for line, entry in entries_of(text):
        number = model.entry(*entry)
        if number != 0:
            end = line
            break
    print(*model.report(), f"end\t{number}\t{end}", sep="\n")


if __name__ == "__main__":
    main()

"""What `perf record` saw of a run of threads: which thread was on which processor, sample by sample, and whether it did
its own work, yielded, or waited for a page.

The threads of a run are known by the order in which they start: the executors, one a partition, then those of clients,
and last others. Other threads draw and settle, but not as many for as long."""
import collections
import re
import subprocess

from measuring import SURROUNDINGS

# How often each processor is looked at in a second, and where that is written.
HERTZ = 1000
EVENT = re.compile(r"\s*\S.*?\s+(\d+)\s+\[(\d+)\]\s+(\d+\.\d+):\s*(?:PERF_RECORD_(FORK|EXIT)\((\d+):(\d+)\))?")
# What a thread did, by a name among those of the functions in which the system was.
KINDS = (("page", "page_fault"), ("yield", "sched_yield"))

Sample = collections.namedtuple("Sample", "time processor thread kind")


def record(words, path):
    """Runs a program under perf. Gives its process number and what it wrote."""
    perf = ["perf", "record", "-a", "-g", "-F", str(HERTZ), "-e", "cpu-clock", "-o", path, "--"]
    # (the shell becomes the program, and has its number)
    shell = ["sh", "-c", 'echo $$; exec "$@"', "sh", *words]
    done = subprocess.run(perf + shell, capture_output=True, text=True, env=SURROUNDINGS)
    if done.returncode != 0:
        raise SystemExit("%s ended with status %d: %s" % (" ".join(words), done.returncode, done.stderr[-300:]))
    number, _, said = done.stdout.partition("\n")
    return int(number), said


def kind_of(functions):
    """What a thread did that was in these functions."""
    return next((kind for kind, name in KINDS if name in functions), "own")


class Run:
    """The samples of a recorded run, and when each thread of the process was there."""

    def __init__(self, process, path):
        self.samples, self.began, self.ended = [], {}, {}
        said = subprocess.run(["perf", "script", "-i", path, "-F", "comm,tid,cpu,time,ip,sym", "--show-task-events"],
                              capture_output=True, text=True, errors="replace", check=True).stdout
        head, functions = None, []
        for line in said.splitlines():
            found = EVENT.match(line)
            if not found:
                functions.append(line)
                continue
            self.sample(head, functions)
            head, functions = None, []
            thread, processor, time, change, of, started = found.groups()
            if change is None:
                head = float(time), int(processor), int(thread)
            elif int(of) == process and int(started) != process and float(time) > 0:
                (self.began if change == "FORK" else self.ended)[int(started)] = float(time)
        self.sample(head, functions)

    def sample(self, head, functions):
        """The sample that this line heads, if there is one."""
        if head:
            self.samples.append(Sample(*head, kind_of("".join(functions))))

    def threads_together(self, count):
        """The threads of the longest time in which so many are there, in the order of their start."""
        changes = sorted([(time, 1, thread) for thread, time in self.began.items()]
                         + [(time, 0, thread) for thread, time in self.ended.items() if thread in self.began])
        now, together, since, longest = set(), set(), 0, (0, set())
        for time, begins, thread in changes:
            were_enough = len(now) >= count
            (now.add if begins else now.discard)(thread)
            if were_enough:
                longest = max(longest, (time - since, together), key=lambda those: those[0])
                together = together | now
            elif len(now) >= count:
                since, together = time, set(now)
        return sorted(longest[1], key=lambda thread: (self.began[thread], thread))


class Span:
    """The samples of the time in which a run's clients were there: from the start of the last of their threads to the
    end of the first executor, which comes once all clients have ended."""

    def __init__(self, run, partitions, started, own):
        """So many threads were started for clients; the threads `own` run clients too."""
        threads = run.threads_together(partitions + started)
        if len(threads) < partitions + started:
            raise SystemExit("there are %d threads, not %d executors and %d with clients"
                             % (len(threads), partitions, started))
        self.executors, self.clients = threads[:partitions], [*own, *threads[partitions:partitions + started]]
        self.began = run.began[threads[partitions + started - 1]]
        self.ended = min(run.ended[thread] for thread in self.executors)
        self.samples = [sample for sample in run.samples if self.began <= sample.time <= self.ended]

    def seconds(self):
        return self.ended - self.began

    def doing(self, sample):
        """What the processor did: for an executor, a client, another thread, or for none."""
        if sample.thread == 0:
            return "idle"
        if sample.thread not in self.executors and sample.thread not in self.clients:
            return "other"
        if sample.kind != "own":
            return sample.kind
        return "executor" if sample.thread in self.executors else "client"

    def shares(self):
        """The part of the processors' time for each of these."""
        counts = collections.Counter(map(self.doing, self.samples))
        return {doing: count / max(len(self.samples), 1) for doing, count in counts.items()}

    def processors(self, width):
        """On how many processors the executors were in a span of so many seconds, on average."""
        seen = collections.defaultdict(set)
        for sample in self.samples:
            if sample.thread in self.executors:
                seen[int((sample.time - self.began) / width)].add(sample.processor)
        return sum(map(len, seen.values())) / max(len(seen), 1)

"""What is put into both databases, and what the program answers: the one module here that knows how rows, calls,
replies and the rows at the end are had."""
import runs

SECONDS = 1800


def lines_of(done):
    """The lines that a run wrote, or what went wrong with it as the only one."""
    if done.status != 0 or done.error:
        return ["status %s, told %s" % (done.status, runs.shown(done.error))]
    return done.output.decode().splitlines()


def rows(program, seed, n):
    """The lines of the rows that `--gen n --seed seed` draws."""
    return lines_of(runs.run(program, ["rows", "--gen", str(n), "--seed", str(seed)], b"", SECONDS))


def calls(program, seed, count, n, is_uniform):
    """The lines of the calls that client 0 of `bench` draws."""
    words = ["calls", "--subscribers", str(n), "--calls", str(count), "--seed", str(seed)]
    return lines_of(runs.run(program, words + ["--uniform"] * is_uniform, b"", SECONDS))


def text_of(lines):
    """Lines as the bytes of an input."""
    return "".join(line + "\n" for line in lines).encode()


def replies(program, rows, calls):
    """What `call` replies to the calls on the rows."""
    return lines_of(runs.run(program, ["call"], text_of(rows + ["."] + calls), SECONDS))


def replies_on_drawn(program, seed, n, calls):
    """What `call` replies to the calls on the rows that it draws itself."""
    words = ["call", "--gen", str(n), "--seed", str(seed)]
    return lines_of(runs.run(program, words, text_of(calls), SECONDS))


def replies_and_rows(program, rows, calls):
    """What `call --rows` replies to the calls on the rows, and the rows after them: by subscriber, then by table, then
    by key."""
    lines = lines_of(runs.run(program, ["call", "--rows"], text_of(rows + ["."] + calls), SECONDS))
    end = lines.index(".") if "." in lines else len(lines)
    return lines[:end], lines[end + 1 :]

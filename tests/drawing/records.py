"""The same history as other recorders write it: a line a call, as intervals, and Jepsen's operations."""


def without_comments(lines):
    return [line for line in lines if line and not line.startswith("#")]


def all_ended(lines):
    """The lines, where each call that isn't ended is lost: before its client asks again, or behind the last line."""
    ended, opened = [], {}
    for line in lines:
        word, client = line.split(" ")[:2]
        if opened.pop(client, None) and word == "ask":
            ended.append("lost " + client)
        if word == "ask":
            opened[client] = True
        ended.append(line)
    return ended + ["lost " + client for client in opened]


def intervals(lines):
    """The calls of lines in which each is ended, a line a call: client, begin, end, call and reply."""
    calls, opened = [], {}
    for time, line in enumerate(lines):
        word, client, said = (line.split(" ", 2) + [""])[:3]
        if word == "ask":
            opened[client] = [client, str(10 * time), None, said]
            calls.append(opened[client])
        else:
            opened[client][2] = str(10 * time)
            opened.pop(client).append(said if word == "end" else word)
    return "".join("\t".join(call) + "\n" for call in calls)


def operations(lines):
    """The lines as Jepsen's history.edn has them; a reply has all its values, or is a failure."""
    names, told = {}, ["{:process :nemesis, :type :info, :f :start, :value nil}"]
    for index, line in enumerate(lines):
        word, client, said = (line.split(" ", 2) + [""])[:3]
        first, *values = said.split(" ")
        names[client] = first.lower().replace("_", "-") if word == "ask" else names[client]
        kind = {"ask": "invoke", "end": "ok", "abort": "fail", "lost": "info"}[word]
        error = ", :error [:failed %s]" % values[0] if first == "FAILED" else ""
        texts = " ".join(value if value.isdigit() and value[0] != "0" else '"%s"' % value for value in values)
        value = "nil" if first == "FAILED" or not values else "[%s]" % texts
        form = (index, client, kind, names[client], value, error)
        told.append("{:index %d, :process %s, :type :%s, :f :%s, :value %s%s}" % form)
    return "\n".join(told) + "\n"

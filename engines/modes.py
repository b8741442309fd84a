"""How calls are made: as the benchmark's SQL says, or wrong in one of the ways in which it is got wrong in practice.
A wrong mode makes one transaction in its own way, out of the statements of examples/sql, and the others rightly."""
import collections
import time

from session import Failed, reply_of
from tatp_sqlite import text_of, transactions_of

TRANSACTIONS = transactions_of(text_of("transactions.sql"))
READS = ("GET_SUBSCRIBER_DATA", "GET_NEW_DESTINATION", "GET_ACCESS_DATA")
# What an application does between two of its statements takes this long.
PAUSE = 0.001
# Between two SELECTs of a reply: other calls have to change two rows meanwhile.
LONG_PAUSE = 0.004

# `answers` has a function for each transaction that is made otherwise. `shown_by` are the transactions that show it, in
# turn: the one that is wrong, and those that change or read the same rows. `is_wrong` is None where it depends on the
# isolation level. `has_replica` is whether a copy that lags is wanted.
Mode = collections.namedtuple("Mode", "told answers shown_by is_wrong has_replica", defaults=(True, False))
# (were bit_1 set more often, one of the calls that are open would explain almost any bit_1 that is read)
LOCATIONS = ("UPDATE_LOCATION", "GET_SUBSCRIBER_DATA") * 3 + ("UPDATE_SUBSCRIBER_DATA", "GET_SUBSCRIBER_DATA")
FORWARDINGS = ("INSERT_CALL_FORWARDING", "GET_NEW_DESTINATION", "DELETE_CALL_FORWARDING")
# (forwardings have to change while one call reads them)
CHANGES = ("INSERT_CALL_FORWARDING", "DELETE_CALL_FORWARDING") * 3 + ("GET_NEW_DESTINATION",)


def values_of(line):
    """The values of a call line by the names of its arguments."""
    name, *values = line.split()
    return dict(zip(TRANSACTIONS[name][0], values))


def statements_of(line):
    """The statements of a call line's transaction."""
    return TRANSACTIONS[line.partition(" ")[0]][1]


def write_back(session, line):
    """UPDATE_LOCATION as a mapper of objects does it: the row is read, and all of it is written back."""
    values = values_of(line)
    found, _ = session.execute("SELECT * FROM Subscriber WHERE sub_nbr = :sub_nbr", values)
    if not found:
        raise Failed(1)
    time.sleep(PAUSE)
    row = dict(zip(subscriber_columns(), found[0]))
    row["vlr_location"] = values["vlr_location"]
    sets = ", ".join("%s = :%s" % (column, column) for column in row if column not in ("s_id", "sub_nbr"))
    session.execute("UPDATE Subscriber SET %s WHERE s_id = :s_id" % sets, row)
    return "OK"


def subscriber_columns():
    """The columns of Subscriber in their order, as GET_SUBSCRIBER_DATA names them."""
    statement = TRANSACTIONS["GET_SUBSCRIBER_DATA"][1][0]
    return statement.partition("SELECT")[2].partition("FROM")[0].replace(",", " ").split()


def three_selects(session, line):
    """GET_NEW_DESTINATION as a loop over the start times: a SELECT for each, up to the one in the call."""
    values = values_of(line)
    statement = statements_of(line)[0].replace("<= :start_time", "= :start_time")
    numbers = []
    for start_time in range(0, int(values["start_time"]) + 1, 8):
        if start_time:
            time.sleep(LONG_PAUSE)
        found, _ = session.execute(statement, dict(values, start_time=start_time))
        numbers += [number for (number,) in found]
    if not numbers:
        raise Failed(1)
    return " ".join(["OK"] + numbers)


def two_updates(session, line):
    """UPDATE_SUBSCRIBER_DATA without BEGIN and COMMIT: each of its two statements is committed alone."""
    for statement in statements_of(line):
        _, count = session.execute(statement, values_of(line))
        if count == 0:
            raise Failed(1)
    return "OK"


def sent_twice(session, line):
    """A call that is sent again, as after a time-out, though it had been made. The client sees the second reply."""
    session.answer(line)
    return session.answer(line)


def from_replica(session, line):
    """A call that reads a copy."""
    return session.replica.answer(line)


def left_open(session, line):
    """A read without a COMMIT: the transaction that its client's first read begins goes on."""
    if not session.is_left_open:
        session.execute("BEGIN", {})
        session.is_left_open = True
    found, _ = session.execute(statements_of(line)[0], values_of(line))
    if not found:
        raise Failed(1)
    return reply_of(found)


def after_reads(session, line):
    """A call that writes, in a transaction of its own: the one that reads have left open is ended first."""
    session.is_left_open = False
    session.undo()
    return session.answer(line)


def in_transaction(made):
    """The same, with BEGIN before it and COMMIT after it."""
    def answer(session, line):
        with session.transaction():
            return made(session, line)
    return answer


MODES = {
    "right": Mode("each call is its transaction, as examples/sql has it", {}, (), False),
    "write-back": Mode("UPDATE_LOCATION reads the row in one transaction and writes all of it back in another: a bit_1 "
                       "that was set between the two is lost", {"UPDATE_LOCATION": write_back}, LOCATIONS),
    "write-back-in-transaction": Mode("the same within one transaction: it depends on the isolation level",
                                      {"UPDATE_LOCATION": in_transaction(write_back)}, LOCATIONS, None),
    "three-selects": Mode("GET_NEW_DESTINATION is a SELECT for each start time, each a transaction: it answers "
                          "forwardings that never stood together",
                          {"GET_NEW_DESTINATION": three_selects}, CHANGES),
    "three-selects-in-transaction": Mode("the same within one transaction: it depends on the isolation level",
                                         {"GET_NEW_DESTINATION": in_transaction(three_selects)}, CHANGES, None),
    "two-updates": Mode("UPDATE_SUBSCRIBER_DATA commits each of its statements: where it fails, bit_1 stays changed",
                        {"UPDATE_SUBSCRIBER_DATA": two_updates},
                        ("UPDATE_SUBSCRIBER_DATA",) + ("GET_SUBSCRIBER_DATA",) * 7),
    "replica": Mode("reads go to a copy that lags: they answer what was so some time ago",
                    dict.fromkeys(READS, from_replica), ("UPDATE_LOCATION", "GET_SUBSCRIBER_DATA"), has_replica=True),
    "left-open": Mode("reads are made in a transaction that is left open until their client writes: it depends on the "
                      "isolation level", {name: left_open if name in READS else after_reads for name in TRANSACTIONS},
                      ("UPDATE_LOCATION",) + ("GET_SUBSCRIBER_DATA",) * 7, None),
    "retry": Mode("INSERT_CALL_FORWARDING is sent twice, and the second reply is given: the row that it inserted is "
                  "there already", {"INSERT_CALL_FORWARDING": sent_twice}, FORWARDINGS),
}

"""Calls of the system fail on a connection, as strace has them fail: that visit ends there, and the desk goes on."""

import re

import pytest
from support import server as places
from support.clients import ask, by_socket, connected, read_all
from support.samples import (
    DEED, DONE, FOR_RECORD, LONG_FILE, LONG_QUESTION, NO_DEED, QUESTION, RECORD, content, drop, put, raw)

COMMAND, DEED_10, LONG_REPLY = raw(put("/deeds/10", DEED)), drop("/deeds/10/rules/1"), content(LONG_FILE)
SHORT = re.compile(r"sendto\(.* (\d+), MSG_NOSIGNAL.* = (\d+)$", re.M)

class Traced(places.Serving):
    """A desk for two visits, of which strace writes the calls on connections and has some fail."""

    def __init__(self, program, store, faults=(), words=()):
        self.log = store.with_name("calls")
        trace = "trace=accept4,recvfrom,sendto,shutdown"
        super().__init__(program, store, 2, words, before=["strace", "-Dfs0", "-o", self.log, "-e", trace, *faults])

    def waits_for(self, holds):
        """What strace has written, once it is so."""
        return places.wait_until(lambda: holds(text := self.log.read_text()) and text)

    def last_call(self):
        """The last call of the first visit before it ends its sending."""
        visit = re.split(r"^.*accept4\(.* = \d+$", self.waits_for(lambda text: "+++ exited" in text), flags=re.M)[1]
        return visit.split("shutdown(")[0].strip().split("\n")[-2]

def broken(program, store, fault, sent, asked):
    """Has a call fail in the first visit: what came of it, the last call, and the reply to a second one."""
    with Traced(program, store, [f"-einject={fault}"]) as served:
        served.listens()
        came, reply = by_socket(served.port, [sent]), ask(served.port, asked)
        assert served.end() == (0, "served 2\n", "")
        return came, served.last_call(), reply

ERRORS = ["EIO", "ECONNRESET", "EINTR", "EAGAIN"]
WRITES = [*(f"error={error}" for error in (*ERRORS, "EPIPE")), "retval=0"]

@pytest.mark.parametrize("error", ERRORS)
@pytest.mark.parametrize("size", [0, 30, len(COMMAND) - 1])
def test_failed_read_is_not_taken_for_the_end(program, long_store, error, size):
    fault = f"recvfrom:error={error}:when={2 if size else 1}"
    came, last, reply = broken(program, long_store, fault, COMMAND[:size or 30], DEED_10)
    assert (came, reply) == ((b"", "an end"), NO_DEED)
    assert "recvfrom(" in last and f"{error} " in last

@pytest.mark.parametrize("fault", WRITES)
def test_command_stands_though_its_reply_cannot_be_written(program, long_store, fault):
    came, last, reply = broken(program, long_store, f"sendto:{fault}:when=1", COMMAND, DEED_10)
    assert (came, reply) == ((b"", "an end"), DONE)
    assert "sendto(" in last and "INJECTED" in last

@pytest.mark.parametrize("fault", WRITES)
def test_nothing_is_written_after_a_failed_write(program, long_store, fault):
    (came, ending), last, reply = broken(program, long_store, f"sendto:{fault}:when=3", LONG_QUESTION, FOR_RECORD)
    assert (ending, reply) == ("an end", RECORD)
    assert LONG_REPLY.startswith(came) and 0 < len(came) < len(LONG_REPLY)
    assert "sendto(" in last and "INJECTED" in last

def test_interrupted_accept_is_made_again(program, long_store):
    came, _, reply = broken(program, long_store, "accept4:error=EINTR:when=1..5", QUESTION, FOR_RECORD)
    assert (came, reply) == ((RECORD, "an end"), RECORD)

def test_short_write_is_not_taken_for_all(program, long_store):
    """A client takes nothing until a write has waited in vain to put all that it has. Then it has the whole reply."""
    with Traced(program, long_store, words=("--write-timeout", "2")) as served:
        served.listens()
        with connected(served.port, 4096) as client:
            client.sendall(LONG_QUESTION)
            served.waits_for(lambda text: any(size != put for size, put in SHORT.findall(text)))
            assert read_all(client) == (LONG_REPLY, "an end")
        assert ask(served.port, FOR_RECORD) == RECORD

#!/usr/bin/env python3
"""Carries datagrams between a client and a server, each a run of `./qconn`, and writes the scripts of both ends.

    tools/carry.py           writes the scripts of two conversations into examples/
    tools/carry.py --check   fails where they aren't what the two ends make of one another

In client.script and server.script the client says hello; when neither end sends any more, it asks for a PING, and then the server does,
whose ACK the client holds back until its timer comes; at last the client closes with code 7 and the reason `bye`.

In asking.script and answering.script the client asks on a stream, once the handshake is over, and the server answers there with more than
a packet holds. The first datagram of the answer is lost; the server's timer brings its bytes again. The client reads all and closes.

A script has no answer of the other end but as datagrams, so each turn runs the whole script of one end again and takes what its
last transmit sent.
"""
import os
import subprocess
import sys

TOP = os.path.dirname(os.path.dirname(os.path.realpath(__file__)))
# The address of each end, as the other end's scripts name it.
CLIENT, SERVER = "00000000000000000000000000000001/50000", "00000000000000000000000000000001/4433"


class End:
    """One end: the lines of its script, the address that its datagrams come from, and the time of its timer, if it has one."""

    def __init__(self, lines, address):
        self.lines, self.address, self.timer = lines, address, None

    def step(self, line):
        """Adds an input line and gives the lines of its step."""
        self.lines.append(line)
        script = "".join(f"{it}\n" for it in self.lines)
        ran = subprocess.run([f"{TOP}/qconn", "run"], input=script.encode(), stdout=subprocess.PIPE, check=True, cwd=TOP)
        told = ran.stdout.decode().rsplit("\nstep ", 1)[1].splitlines()
        timer = next(it.split(" ")[1] for it in told if it.startswith("timer "))
        self.timer = None if timer == "-" else int(timer)
        return told

    def sent(self, time):
        """A transmit: gives the datagram that it sent, if it sent one."""
        for line in self.step(f"transmit {time} 1"):
            if line.startswith("out "):
                return line.split(" ")[5]
        return None


def carry(time, one, other, lost=0):
    """Carries all that `one` sends to `other`, but for the first `lost` datagrams, and gives the time afterwards and whether there was
    anything."""
    some = False
    while True:
        time += 1000
        datagram = one.sent(time)
        if datagram is None:
            return time, some
        some = True
        if lost > 0:
            lost -= 1
            continue
        time += 1000
        other.step(f"datagram {time} {one.address} - {datagram}")


def talk(time, client, server):
    """Carries datagrams both ways until neither end sends any more, and gives the time afterwards."""
    while True:
        time, from_client = carry(time, client, server)
        time, from_server = carry(time, server, client)
        if not from_client and not from_server:
            return time


def two_ends():
    """A client and a server that were just made."""
    client = End(["set side client", "set remote 0303030303030303", "set mtud 0"], CLIENT)
    server = End(["set side server", "set local 0404040404040404", "set remote 0101010101010101", f"set addr {CLIENT}", "set mtud 0"], SERVER)
    return client, server


def pings():
    """The scripts of two ends that ping each other."""
    client, server = two_ends()
    time = talk(0, client, server)
    client.step(f"ping {time}")
    time = talk(time, client, server)
    server.step(f"ping {time}")
    time = max(talk(time, client, server), client.timer)
    client.step(f"timeout {time}")
    time = talk(time, client, server)
    client.step(f"close {time} 7 627965")
    talk(time, client, server)
    return {"client": client.lines, "server": server.lines}


def question():
    """The scripts of two ends, one of which asks on a stream, and the other answers."""
    client, server = two_ends()
    time = talk(0, client, server)
    for call in ("open {} bi", f"write {{}} 0 {b'why?'.hex()}", "finish {} 0"):
        client.step(call.format(time))
    time = talk(time, client, server)
    for call in ("accept {} bi", "read {} 0 100", "read {} 0 100", f"write {{}} 0 {(b'because ' * 188).hex()}", "finish {} 0"):
        server.step(call.format(time))
    time, _ = carry(time, server, client, lost=1)
    time = max(talk(time, client, server), server.timer)
    server.step(f"timeout {time}")
    time = talk(time, client, server)
    for _ in range(3):
        client.step(f"read {time} 0 2000")
    client.step(f"close {time} 7 627965")
    talk(time, client, server)
    return {"asking": client.lines, "answering": server.lines}


def main():
    bad = False
    for name, lines in {**pings(), **question()}.items():
        path, text = f"{TOP}/examples/{name}.script", "".join(f"{it}\n" for it in lines)
        if sys.argv[1:] == ["--check"]:
            with open(path, encoding="ascii") as file:
                if file.read() != text:
                    print(f"examples/{name}.script isn't what the two ends make of one another: tools/carry.py writes it")
                    bad = True
        else:
            with open(path, "w", encoding="ascii") as file:
                file.write(text)
    sys.exit(bad)


if __name__ == "__main__":
    main()

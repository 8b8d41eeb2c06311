#!/usr/bin/env python3
"""The two ends of a flow in datagrams, for tools/datagram-trial, each a program of its own.

  datagram_ends.py send MESSAGES PER PORT               sends, and answers what is asked for, until it is ended
  datagram_ends.py receive FLOW MESSAGES PER PORT INBOX takes what comes, and ends once it has all

PORT is that of the relay between them. A datagram is a Sequence frame with the number of its first message, and then PER application frames.
What a receiver says once nothing waits for it is what it asks for, the first number and how many, in 8 bytes each; or nothing, and then the next
ones may come. INBOX has a line `begun NEXT` for each run, and for each datagram that
came its place, `datagram K`, the lines of what became of its messages, and `end`."""
import select, socket, struct, sys

HOST, MOST_ASKED = "127.0.0.1", 256
# seconds after which a receiver to which nothing comes asks again; datagrams that are sent at once, those that are sent again at once, since what
# comes behind a gap is dropped, and how often each of these
PATIENCE, AT_ONCE, AGAIN, TIMES = 0.005, 32, 8, 4
SEQUENCE = b"\xeb\x50" + struct.pack("<4H", 8, 7, 0xF011, 0)


def payload(k):
    """The payload of message k."""
    return b"\xeb\x50" + struct.pack("<4HQ", 8, 1, 200, 0, k)


def frame(payload):
    return (len(payload) + 4).to_bytes(4, "big") + payload


def packed(messages, per):
    """The datagrams of the messages, with so many each, the last with what is left."""
    starts = range(1, messages + 1, per)
    return [frame(SEQUENCE + struct.pack("<Q", n)) + b"".join(frame(payload(k)) for k in range(n, min(n + per, messages + 1))) for n in starts]


def opened(datagram):
    """The number of a datagram's first message, and the payloads of its messages."""
    found, at = [], 0
    while at < len(datagram):
        size = int.from_bytes(datagram[at : at + 4], "big")
        found.append(datagram[at + 4 : at + size])
        if len(found[-1]) < 10 or len(found[-1]) != size - 4 or found[-1][:2] != b"\xeb\x50":
            sys.exit(f"a datagram has no frame at byte {at}")
        at += size
    if not found or len(found[0]) != 18 or found[0][:10] != SEQUENCE or any(it[6:8] == b"\x11\xf0" for it in found[1:]):
        sys.exit("a datagram is no Sequence with application messages behind it")
    return struct.unpack("<Q", found[0][10:])[0], found[1:]


def waits(link, seconds):
    """Whether a datagram waits, or comes in so many seconds."""
    return bool(select.select([link], [], [], seconds)[0])


def joined(port):
    """A socket at a port of its own, whose datagrams go to this one."""
    link = socket.socket(socket.AF_INET, socket.SOCK_DGRAM)
    link.bind((HOST, 0))
    link.connect((HOST, port))
    return link


def send(messages, per, port):
    datagrams, sent, link = packed(messages, per), 0, joined(port)
    # the receiver is to hear of this one
    link.send(datagrams[0])
    while True:
        said = link.recv(16)
        while waits(link, 0):
            said = link.recv(16)
        if said:
            first, count = struct.unpack("<2Q", said)
            place = (first - 1) // per
            chosen = TIMES * datagrams[place : min((first + count - 2) // per + 1, place + AGAIN)]
        elif sent < len(datagrams):
            chosen = datagrams[sent : sent + AT_ONCE]
            sent += AT_ONCE
        else:
            # it may be that the last was lost, of which nobody knows otherwise
            chosen = datagrams[-1:]
        for datagram in chosen:
            link.send(datagram)


class Receiver:
    """What becomes of messages, by the numbers that they have."""

    def __init__(self, flow, next_number):
        self.flow, self.next, self.known = flow, next_number, 0

    def taken(self, first, payloads):
        """The lines of a datagram that is delivered."""
        lines = []
        if self.flow == "idempotent" and first > self.next:
            lines.append(f"missing {self.next} {first - self.next}")
            self.next = first
        for number, it in enumerate(payloads, first):
            if number == self.next:
                lines.append(f"deliver {number} {it.hex()}")
                self.next += 1
            elif number < self.next:
                lines.append(f"late {number}")
        self.known = max(self.known, first + len(payloads))
        if self.asks():
            lines.append("ask %d %d" % self.asks())
        return lines

    def asks(self):
        """What is to be asked for: the first number and how many, or None."""
        if self.flow == "recoverable" and self.next < self.known:
            return self.next, min(MOST_ASKED, self.known - self.next)
        return None


def next_behind(next_number, lines):
    """The number that an inbox waits for behind these lines."""
    for line in lines:
        words = line.split()
        if words[0] == "deliver":
            next_number = int(words[1]) + 1
        elif words[0] == "missing":
            next_number = int(words[1]) + int(words[2])
    return next_number


def begun(path):
    """The number that an inbox waits for. What stands behind its last whole record was cut off when its program was ended, and goes."""
    with open(path, "a+") as inbox:
        inbox.seek(0)
        text = inbox.read()
        place = text.rfind("\nend\n")
        whole = text[: place + len("\nend\n")] if place >= 0 else ""
        inbox.truncate(len(whole))
    return next_behind(1, whole.splitlines())


def receive(flow, messages, per, port, path):
    receiver, link = Receiver(flow, begun(path)), joined(port)
    with open(path, "ab", buffering=0) as inbox:
        inbox.write(f"begun {receiver.next}\n".encode())
        while receiver.next <= messages:
            if not waits(link, 0):
                link.send(struct.pack("<2Q", *receiver.asks()) if receiver.asks() else b"")
                if not waits(link, PATIENCE):
                    continue
            first, payloads = opened(link.recv(65536))
            lines = [f"datagram {(first - 1) // per + 1}", *receiver.taken(first, payloads), "end"]
            # all in one piece, before anything else is done
            inbox.write("".join(line + "\n" for line in lines).encode())


if __name__ == "__main__":
    try:
        if sys.argv[1] == "send":
            send(*map(int, sys.argv[2:]))
        else:
            receive(sys.argv[2], *map(int, sys.argv[3:6]), sys.argv[6])
    except ConnectionRefusedError:
        sys.exit("the relay is gone")

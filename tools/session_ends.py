"""Two ends of a session on this machine, for the trials beside this file: their files, their processes and their journals."""
import os, re, signal, socket, subprocess, time

root = os.path.dirname(os.path.dirname(os.path.abspath(__file__)))
program = os.path.join(root, "crates", "fixpgw", "out", "fixpgw")
SESSION = "00112233-4455-6677-8899-aabbccddeeff"
# the moment in front of a line that tells of a run, in UTC
STAMP = r"^\d{4}-\d\d-\d\dT\d\d:\d\d:\d\d\.\d{3}Z "


def build():
    subprocess.run([os.path.join(root, "fixpgw"), "--version"], check=True, stdout=subprocess.DEVNULL)


def free_port():
    """A port of this machine's own network at which nobody listens now."""
    with socket.socket() as one:
        one.bind(("127.0.0.1", 0))
        return one.getsockname()[1]


def payload(sender, k, size=26):
    """The payload of the k-th message of a sender, `size` bytes with the encoding type: no two are equal."""
    body = sender.to_bytes(8, "little") + k.to_bytes(8, "little") + bytes(size - 26)
    header = b"".join(n.to_bytes(2, "little") for n in (len(body), 1, 100, 1))
    return b"\xeb\x50" + header + body


def plans(senders, messages, size=26):
    """The text of plans: `messages` payloads of each sender, the senders in turn."""
    lines = [f"{s} {payload(s, k, size).hex()}\n" for k in range(1, messages + 1) for s in range(1, senders + 1)]
    return "".join(lines)


def configuration(client_flow, server_flow, senders, keepalive=1000, version=1):
    return (f'session = "{SESSION}"\nkeepalive = {keepalive}\nclient_flow = "{client_flow}"\n'
            f'server_flow = "{server_flow}"\nsenders = {senders}\nsession_version = {version}\n')


def parted(text):
    """The lines on standard error that say how a run ended, and those with a moment in front, without it, that tell of the run."""
    said, told = [], []
    for line in text.splitlines():
        moment = re.match(STAMP, line)
        if moment:
            told.append(line[moment.end() :])
        else:
            said.append(line)
    return said, told


class End:
    """One end: its files in a folder of its own, and its process while it runs."""

    def __init__(self, folder, command, port, client_flow="recoverable", server_flow="recoverable", senders=2, messages=100,
                 size=26, connections=65535, keepalive=1000, version=1):
        self.folder, self.command, self.senders, self.messages = folder, command, senders, messages
        self.words = [program, command, f"127.0.0.1:{port}", str(connections), "config.toml", "plans.txt", "out.jrn", "in.jrn", "out.txt"]
        self.process, self.statuses, self.said, self.told = None, [], [], []
        os.mkdir(folder)
        with open(self.at("config.toml"), "w") as f:
            f.write(configuration(client_flow, server_flow, senders, keepalive, version))
        with open(self.at("plans.txt"), "w") as f:
            f.write(plans(senders, messages, size) if senders else "")
        subprocess.run([program, "format", "out.jrn", "in.jrn"], cwd=folder, check=True, stdout=subprocess.DEVNULL)

    def at(self, name):
        return os.path.join(self.folder, name)

    def start(self):
        # a file, since what a process tells over many connections is more than a pipe holds
        with open(self.at("said.txt"), "wb") as said:
            self.process = subprocess.Popen(self.words, cwd=self.folder, stdin=subprocess.DEVNULL, stdout=subprocess.DEVNULL, stderr=said)

    def is_running(self):
        """Whether its process runs; the status of one that has ended is kept."""
        if self.process is None:
            return False
        code = self.process.poll()
        if code is None:
            return True
        self.reap()
        return False

    def reap(self):
        """Keeps the status of a process that has ended, what it said of it, and what it told of its run."""
        self.statuses.append(self.process.wait())
        with open(self.at("said.txt")) as lines:
            said, told = parted(lines.read())
        self.told.append(told)
        if said:
            self.said.append("\n".join(said))
        self.process = None

    def kill(self):
        """Ends its process at once, as a crash would; False where it has ended by itself."""
        if not self.is_running():
            return False
        self.process.send_signal(signal.SIGKILL)
        self.process.wait()
        ended_by_kill = self.process.returncode == -signal.SIGKILL
        self.reap()
        return ended_by_kill

    def has_finished(self):
        return 0 in self.statuses

    def journals(self):
        """What both journals hold: the entries, what was applied and jumped over, and the marks."""
        said = subprocess.run([program, "journal", "out.jrn", "in.jrn", "-"], cwd=self.folder, stdout=subprocess.PIPE,
                              stderr=subprocess.PIPE, timeout=120)
        if said.returncode != 0:
            raise SystemExit(f"{self.folder}: journal ends with {said.returncode}: {said.stderr.decode()}")
        entries, applied, skipped, marks = [], {}, set(), []
        for line in said.stdout.decode().splitlines():
            line = line.split(" ", 2)[2] if line.startswith("at ") else line
            words = line.split(" ")
            if words[0] == "entry":
                entries.append((int(words[1]), int(words[3]), int(words[5]), words[6]))
            elif words[0] == "apply":
                applied[int(words[1])] = words[2]
            elif words[0] == "skip":
                skipped.update(range(int(words[1]), int(words[1]) + int(words[2])))
            elif words[0] in ("finish", "negotiated", "peer-finished"):
                marks.append(line)
        return entries, applied, skipped, marks


def faults(near, far, may_skip):
    """What is wrong with the journals of two ends that have finished: each message of each sender stands once and in order in
    the outbox, and the other's inbox holds each number once, as it was sent or, where the flow may lose some, jumped over."""
    found = []
    for one, other in ((near, far), (far, near)):
        entries, _, _, marks = one.journals()
        _, applied, skipped, other_marks = other.journals()
        for sender in range(1, one.senders + 1):
            mine = [(k, digits) for _, s, k, digits in entries if s == sender]
            size = len(mine[0][1]) // 2 if mine else 26
            wanted = [(k, payload(sender, k, size).hex()) for k in range(1, one.messages + 1)]
            if mine != wanted:
                found.append(f"{one.command}: the entries of sender {sender} are not its plan")
        if [n for n, *_ in entries] != list(range(1, len(entries) + 1)):
            found.append(f"{one.command}: the entries are not numbered in order")
        sent = {n: digits for n, _, _, digits in entries}
        if any(sent.get(n) != digits for n, digits in applied.items()):
            found.append(f"{other.command}: its inbox holds what was not sent so")
        if set(applied) | skipped != set(sent) or set(applied) & skipped:
            found.append(f"{other.command}: its inbox has not each number of the other's outbox once")
        if skipped and not may_skip:
            found.append(f"{other.command}: {len(skipped)} numbers were jumped over")
        if "finish" not in marks or not any(mark.startswith("peer-finished") for mark in other_marks):
            found.append(f"{one.command}: its finish is not in both journals")
    return found


def run_until_finished(ends, between, patience):
    """Keeps both ends running until each has ended with status 0 some time, and calls `between` again and again meanwhile. An
    end that has finished is started again as long as the other has not, so that it hears of the finish. False where that
    takes longer than `patience` seconds behind the last time that `between` did something."""
    last = time.monotonic()
    try:
        while not all(end.has_finished() for end in ends):
            for end in ends:
                if not end.is_running() and not all(end.has_finished() for end in ends):
                    if end.statuses and end.statuses[-1] not in (0, 7, -9):
                        raise SystemExit(f"{end.folder}: ended with {end.statuses[-1]}: {end.said[-1:]}")
                    end.start()
            if between():
                last = time.monotonic()
            elif time.monotonic() - last > patience:
                return False
        return True
    finally:
        for end in ends:
            end.kill()

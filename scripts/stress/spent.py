"""What a line takes of a program that is at work: the processor's seconds, and the memory besides that of the lines
before."""
import os
import resource
import subprocess
import time

LIMIT = 60
ADDRESSES = 6 << 30
PIPE = 32_768


def limited(limit):
    """A process that the system ends when it has computed for that long, and that is refused too much memory."""
    def limit_it():
        resource.setrlimit(resource.RLIMIT_CPU, (limit, limit))
        resource.setrlimit(resource.RLIMIT_AS, (ADDRESSES, ADDRESSES))
    return limit_it


class Spent:
    """The seconds and megabytes that a line took, and the reply to it."""

    def __init__(self, seconds, megabytes, reply):
        self.seconds, self.megabytes, self.reply = seconds, megabytes, reply


class Speaker:
    """A program that answers each line with one, and what the system keeps of it. `words` has the users, too."""

    def __init__(self, words, limit=LIMIT):
        self.run = subprocess.Popen(words, stdin=subprocess.PIPE, stdout=subprocess.PIPE, stderr=subprocess.DEVNULL,
                                    preexec_fn=limited(limit))
        self.reply("user " + words[-1])

    def __enter__(self):
        return self

    def __exit__(self, *_):
        self.run.kill()
        self.run.wait()
        self.run.stdin.close()
        self.run.stdout.close()

    def write(self, lines):
        try:
            self.run.stdin.write("".join(line + "\n" for line in lines).encode("latin-1"))
            self.run.stdin.flush()
        except OSError:
            pass

    def reply(self, line):
        """What is answered: nothing where the process has ended."""
        self.write([line])
        return self.run.stdout.readline().decode("latin-1").rstrip("\n")

    def say_all(self, lines):
        """Says lines, as many at a time as a pipe holds, and takes in what is answered."""
        some, size = [], 0
        for line in [*lines, None]:
            if line is None or size + len(line) > PIPE:
                self.write(some)
                for _ in some:
                    self.run.stdout.readline()
                some, size = [], 0
            if line is not None:
                some.append(line)
                size += len(line) + 1

    def seconds(self):
        """The processor's time until now, once the process waits for a line."""
        folder = f"/proc/{self.run.pid}/task"
        for _ in range(200):
            with open(f"/proc/{self.run.pid}/stat", encoding="ascii") as file:
                if file.read().rsplit(")", 1)[1].split()[0] in "SZ":
                    break
            time.sleep(0.0005)
        spent = 0
        for task in os.listdir(folder):
            with open(f"{folder}/{task}/schedstat", encoding="ascii") as file:
                spent += int(file.read().split()[0])
        return spent / 1e9

    def megabytes(self, row):
        with open(f"/proc/{self.run.pid}/status", encoding="ascii") as file:
            return next((int(line.split()[1]) for line in file if line.startswith(row + ":")), 0) / 1024

    def forget_peak(self):
        """The most memory counts from now on."""
        with open(f"/proc/{self.run.pid}/clear_refs", "w", encoding="ascii") as file:
            file.write("5")


def spent(words, before, line, limit=LIMIT):
    """What a line takes of a program that is called so, after others. A program that the system ends takes all that it
    may."""
    with Speaker(words, limit) as speaker:
        speaker.say_all(before)
        try:
            speaker.forget_peak()
            seconds, megabytes = speaker.seconds(), speaker.megabytes("VmRSS")
            reply = speaker.reply(line)
            if reply:
                return Spent(speaker.seconds() - seconds, speaker.megabytes("VmHWM") - megabytes, reply)
        except OSError:
            pass
        return Spent(limit, ADDRESSES >> 20, "(it ended)")

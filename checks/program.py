"""Runs the program s390x on many jobs: the proved build, or an unproved one by `rt try`, which is built once for all of them."""
import os
import re
import shutil
import subprocess

ROOT = os.path.dirname(os.path.dirname(os.path.abspath(__file__)))
CRATE = os.path.join(ROOT, "crates", "s390x")


class Told:
    """How the machine's run ended, as the program tells it: kind and place of the stop, condition code, registers, regions."""

    def __init__(self, text):
        self.kind, self.place, self.code = "Limit", None, None
        self.general, self.vector, self.memory = [0] * 16, [0] * 32, {}
        self.went = 0
        for line in text.splitlines():
            self.read(line.split(" "))

    def read(self, words):
        if words[0] == "went":
            self.went = int(words[1])
        elif words[0] == "stop":
            self.kind = words[1]
        elif words[0] == "norow":
            self.kind = "NoRow"
        elif words[0] == "place":
            self.place = int(words[1])
        elif words[0] == "cc":
            self.code = int(words[1])
        elif words[0] == "reg" and words[1].startswith("%r"):
            self.general[int(words[1][2:])] = int(words[2])
        elif words[0] == "reg":
            self.vector[int(words[1][2:])] = int(words[2], 16)
        elif words[0] == "mem":
            self.memory[int(words[1])] = bytes.fromhex(words[2])


def run_proved(jobs):
    """What the proved program writes for each (words, job), and its statuses."""
    answers = []
    for words, text in jobs:
        done = subprocess.run([os.path.join(ROOT, "s390x")] + words, input=text.encode(), stdout=subprocess.PIPE)
        answers.append((done.returncode, done.stdout.decode()))
    return answers


def run_unproved(jobs, folder):
    """The same of an unproved build."""
    for i, (words, text) in enumerate(jobs):
        with open(os.path.join(folder, f"{i:06}"), "w") as file:
            file.write(text)
        with open(os.path.join(folder, f"{i:06}.args"), "w") as file:
            file.write("".join(word + "\n" for word in words))
    rt = os.environ.get("RT") or shutil.which("rt") or "/opt/rattle/bin/rt"
    done = subprocess.run([rt, "try", "--cases", folder], cwd=CRATE, stdout=subprocess.PIPE, stderr=subprocess.STDOUT)
    answers = {}
    for name, body, status in re.findall(r"^== (\d{6})\n(.*?)^case=\1 run=ended status=(\d+)", done.stdout.decode(), re.M | re.S):
        answers[int(name)] = (int(status), body)
    if len(answers) != len(jobs):
        raise SystemExit(f"the unproved build answered {len(answers)} of {len(jobs)} jobs:\n" + done.stdout.decode()[-2000:])
    return [answers[i] for i in range(len(jobs))]

#!/usr/bin/env python3
"""Searches a tree by one run and by GNU parallel over shares of its files, and compares outputs and statuses byte for
byte: `tests/check_parallel.py [--program PATH]`, or `make check-parallel`. It is no part of the gate.

It needs GNU parallel; and for shares on other hosts also sshd, ssh, ip and the rights of root, by which it makes two
hosts of its own in network namespaces on this machine, removed at the end (Debian: parallel, openssh-server,
openssh-client, iproute2). Without these that part is left out, and a line says so. Times are printed and not judged.
The last line is `N passed, M failed`.
"""

import os
import shutil
import subprocess
import sys
import tempfile
import time
from pathlib import Path

import built

ENVIRONMENT = {**os.environ, "LC_ALL": "C", "HOME": os.environ.get("HOME", "/root")}
FILES = 2_000
LIMIT = 300

# Options and pattern of each search. Where context is asked for, outputs that both have rows are joined by hyphens. The
# first pattern stands in a file, for GNU parallel would replace its braces.
SEARCHES = (
    (["-n", "-H", "-E", "-f", "expressions"], False),
    (["-c", "-H", "water"], False),
    (["-l", "needle"], False),
    (["-o", "-H", "-E", "need[a-z]+"], False),
    (["-H", "stands nowhere"], False),
    (["-n", "-H", "-C", "1", "needle"], True),
)

# Puts the row of hyphens before what a share gives, if that is anything; the first one of all is cut off again.
APART = "{ IFS= read -r row && printf -- '--\\n%s\\n' \"$row\" && cat; }"


def make(folder):
    """Files of some words, a tenth of which hold `needle`."""
    words = "water fire earth wind snow rain hail fog mist ice queueing aeon beautiful".split()
    for number in range(FILES):
        path = folder / f"tree/d{number % 40:02}/f{number:04}"
        path.parent.mkdir(parents=True, exist_ok=True)
        lines = [f"{words[(number * 7 + at) % len(words)]} line {at}" for at in range(60)]
        if number % 10 == 0:
            lines[number % 60] = "a needle here"
        path.write_text("\n".join(lines) + "\n")
    names = sorted(str(path.relative_to(folder)) for path in (folder / "tree").rglob("f*"))
    (folder / "expressions").write_text("[aeiou]{3}\n")
    (folder / "names").write_text("\n".join(names) + "\n")
    return names


def quoted(words):
    return " ".join("'" + word.replace("'", "'\\''") + "'" for word in words)


def timed(command, folder, is_shell=False):
    before = time.perf_counter()
    ran = subprocess.run(command, cwd=folder, env=ENVIRONMENT, shell=is_shell, capture_output=True, timeout=LIMIT,
                         check=False)
    return ran, time.perf_counter() - before


def joined_status(statuses):
    """2 where a share has it, else 0 where one has, else 1."""
    return 2 if 2 in statuses else min(statuses, default=1)


def statuses_of(log):
    """The status of each share's last run, from the log of jobs."""
    found = {}
    for line in log.read_text().splitlines()[1:]:
        cells = line.split("\t")
        found[cells[0]] = int(cells[6])
    return list(found.values())


def shares(program, options, folder, count, more=()):
    """What GNU parallel joins of so many shares of the files, the status that theirs come to, and the time."""
    log = folder / "jobs"
    log.unlink(missing_ok=True)
    size = str(-(-FILES // count))
    search = f"{quoted([program, *options])} {{}}"
    command = ["parallel", "-k", "-n", size, "-j", str(count), "--joblog", str(log), *more, search, "::::", "names"]
    ran, took = timed(command, folder)
    return ran.stdout, joined_status(statuses_of(log)) if log.exists() else -1, took


def with_hyphens(program, options, folder, count):
    """The same where groups of lines are set apart by hyphens."""
    search = f"{quoted([program, *options])} {{}} | {APART}"
    size = -(-FILES // count)
    command = ["parallel", "-k", "-n", str(size), "-j", str(count), search, "::::", "names"]
    ran, took = timed(command, folder)
    return ran.stdout.removeprefix(b"--\n"), took


def check(label, is_right, detail=""):
    print(f"{'ok' if is_right else 'FAILED'}: {label}{': ' + detail if detail and not is_right else ''}", flush=True)
    return is_right


def on_this_machine(program, folder, names):
    """Shares of the files, searched side by side on this machine."""
    results = []
    for options, has_groups in SEARCHES:
        whole, took = timed([program, *options, *names], folder)
        for count in (1, 2, 4):
            label = f"{' '.join(options)} in {count} shares"
            if has_groups:
                output, shared = with_hyphens(program, options, folder, count)
                is_right = output == whole.stdout
            else:
                output, status, shared = shares(program, options, folder, count)
                is_right = output == whole.stdout and status == whole.returncode
            results.append(check(label, is_right, f"{len(output)} and {len(whole.stdout)} bytes"))
            print(f"    {1000 * took:.0f} ms by one run, {1000 * shared:.0f} ms in shares")
    return results


def mixing(program, folder, names):
    """Without -k shares come in the order in which they end: seen, not judged."""
    whole, _ = timed([program, "-n", "-H", "-E", "[aeiou]", *names], folder)
    words = f"xargs -P 4 -n 250 {quoted([program, '-n', '-H', '-E', '[aeiou]'])} < names"
    mixed, _ = timed(words, folder, is_shell=True)
    kind = "the same" if mixed.stdout == whole.stdout else "other"
    print(f"by xargs -P 4, whose runs share one output: {kind} bytes; nothing keeps shares apart or in order")


class Hosts:
    """Two hosts in network namespaces of this machine, with an sshd each."""

    ADDRESSES = ("10.231.7.2", "10.231.8.2")

    def __init__(self, folder):
        self.folder, self.daemons, self.names = folder, [], []

    def do(self, line):
        subprocess.run(line.split(), check=True, capture_output=True, timeout=LIMIT)

    def __enter__(self):
        key = self.folder / "key"
        subprocess.run(["ssh-keygen", "-q", "-t", "ed25519", "-N", "", "-f", str(key)], check=True, timeout=LIMIT)
        (self.folder / "authorized").write_bytes((self.folder / "key.pub").read_bytes())
        os.makedirs("/run/sshd", exist_ok=True)
        for number, address in enumerate(self.ADDRESSES):
            name, near, far = f"pargrep{number}", f"pg{number}a", f"pg{number}b"
            self.do(f"ip netns add {name}")
            self.names.append(name)
            self.do(f"ip link add {near} type veth peer name {far} netns {name}")
            self.do(f"ip addr add {address.rsplit('.', 1)[0]}.1/24 dev {near}")
            self.do(f"ip link set {near} up")
            self.do(f"ip -n {name} addr add {address}/24 dev {far}")
            self.do(f"ip -n {name} link set {far} up")
            self.do(f"ip -n {name} link set lo up")
            self.start(name, address)
        return self

    def start(self, name, address):
        options = {
            "HostKey": self.folder / "key", "AuthorizedKeysFile": self.folder / "authorized", "ListenAddress": address,
            "StrictModes": "no", "UsePAM": "no", "PermitRootLogin": "yes", "MaxStartups": "100", "PidFile": "none",
        }
        words = ["ip", "netns", "exec", name, shutil.which("sshd", path="/usr/sbin:/sbin:/usr/bin"), "-D", "-e", "-f",
                 "/dev/null", *(word for key, value in options.items() for word in ("-o", f"{key}={value}"))]
        self.daemons.append(subprocess.Popen(words, stdout=subprocess.DEVNULL, stderr=subprocess.DEVNULL))
        for _ in range(100):
            words = [*self.ssh(), f"root@{address}", "true"]
            if subprocess.run(words, capture_output=True, check=False).returncode == 0:
                return
            time.sleep(0.1)
        raise RuntimeError(f"no sshd answers at {address}")

    def ssh(self):
        return ["ssh", "-i", str(self.folder / "key"), "-o", "StrictHostKeyChecking=no", "-o",
                "UserKnownHostsFile=/dev/null", "-o", "LogLevel=ERROR", "-o", "BatchMode=yes"]

    def options(self):
        """The words for GNU parallel. The hosts see the same files, in the folder of the same name."""
        hosts = ",".join(f"2/{' '.join(self.ssh())} root@{it}" for it in self.ADDRESSES)
        return ["-S", hosts, "--workdir", str(self.folder)]

    def __exit__(self, *_):
        for daemon in self.daemons:
            daemon.terminate()
            daemon.wait()
        for name in self.names:
            subprocess.run(["ip", "netns", "del", name], check=False, capture_output=True)


def on_hosts(program, folder, names):
    """Shares of the files on two hosts, of which one loses a run once."""
    results = []
    with Hosts(folder) as hosts:
        options = SEARCHES[0][0]
        whole, took = timed([program, *options, *names], folder)
        output, status, shared = shares(program, options, folder, 4, hosts.options())
        is_right = output == whole.stdout and status == whole.returncode
        results.append(check("four shares on two hosts", is_right, f"{len(output)} bytes, status {status}"))
        print(f"    {1000 * took:.0f} ms by one run, {1000 * shared:.0f} ms in shares")
        dies = folder / "dies-once"
        dies.write_text(f'#!/bin/sh\nmkdir "{folder}/died" 2>/dev/null && kill -9 $$\nexec "{program}" "$@"\n')
        dies.chmod(0o755)
        more = [*hosts.options(), "--retries", "3"]
        output, status, _ = shares(str(dies), options, folder, 4, more)
        is_right = (folder / "died").exists() and output == whole.stdout and status == whole.returncode
        results.append(check("a run that is killed once is tried again", is_right, f"{len(output)} bytes, {status}"))
    return results


def lacking():
    """What shares on other hosts need and this machine lacks."""
    path = f"{os.defpath}:/usr/sbin:/sbin"
    lacks = [it for it in ("sshd", "ssh", "ssh-keygen", "ip") if not shutil.which(it, path=path)]
    return lacks if os.geteuid() == 0 else [*lacks, "root"]


def main():
    program = built.program("Compares one run with shares of its files, searched by GNU parallel.")
    if program is None:
        return 1
    if not shutil.which("parallel"):
        print("check-parallel: GNU parallel is missing (Debian: parallel)\n0 passed, 1 failed")
        return 1
    with tempfile.TemporaryDirectory(prefix="pargrep-parallel-") as room:
        folder = Path(room)
        names = make(folder)
        results = on_this_machine(program, folder, names)
        mixing(program, folder, names)
        lacks = lacking()
        if lacks:
            print(f"hosts: left out, since this machine lacks {', '.join(lacks)}")
        else:
            results += on_hosts(program, folder, names)
    print(f"{sum(results)} passed, {len(results) - sum(results)} failed")
    return 0 if all(results) else 1


if __name__ == "__main__":
    sys.exit(main())

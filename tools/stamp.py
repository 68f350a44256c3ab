#!/usr/bin/env python3
"""Runs a command and writes its output with times: tools/stamp.py rt ci > gate.log

Each line of the command's standard output and standard error becomes

    SECONDS | LINE

with the seconds of the clock. `rt ci` prints no processor times, so they are read from the system: whenever a check of
a crate (a process `rattle .. --crate-name NAME` below the command) has ended, there is a line

    SECONDS work NAME BEGAN ENDED PROCESSOR

with the seconds of the clock between which it was seen, and the processor seconds that it and the processes below it had
used when it was last seen. It is looked at every half second, so up to that much of each check is missing. The last line
is

    SECONDS all BEGAN ENDED PROCESSOR

for the whole command; its processor seconds are the system's own count, with nothing missing. The status is the command's.
It needs Linux's /proc.
"""
import os
import subprocess
import sys
import threading
import time

PAUSE = 0.5
TICKS = os.sysconf("SC_CLK_TCK")


def processes():
    """Each process by its number: its parent, its processor seconds with those of its ended children."""
    found = {}
    for name in os.listdir("/proc"):
        if name.isdigit():
            try:
                with open(f"/proc/{name}/stat", "rb") as file:
                    fields = file.read().rpartition(b")")[2].split()
            except OSError:
                continue
            found[int(name)] = (int(fields[1]), sum(int(it) for it in fields[11:15]) / TICKS)
    return found


def crate_of(number):
    """The crate that the process checks, if it checks one."""
    try:
        with open(f"/proc/{number}/cmdline", "rb") as file:
            words = file.read().split(b"\0")
    except OSError:
        return None
    if os.path.basename(words[0]) != b"rattle" or b"--crate-name" not in words[:-1]:
        return None
    return words[words.index(b"--crate-name") + 1].decode(errors="replace")


def checks_below(top):
    """The checks below a process: crate and processor seconds by number. What stands below a check counts with it."""
    found = processes()
    children = {}
    for number, (parent, _) in found.items():
        children.setdefault(parent, []).append(number)
    checks = {}
    left = [(it, None) for it in children.get(top, [])]
    while left:
        number, check = left.pop()
        crate = None if check else crate_of(number)
        if crate:
            check, checks[number] = number, [crate, 0.0]
        if check:
            checks[check][1] += found[number][1]
        left += [(it, check) for it in children.get(number, [])]
    return checks


def main():
    if len(sys.argv) < 2:
        print("usage: tools/stamp.py COMMAND [WORD..] > LOG", file=sys.stderr)
        return 2
    printing, ended = threading.Lock(), threading.Event()

    def say(text):
        with printing:
            print(f"{time.time():.1f} {text}", flush=True)

    def work(seen):
        crate, began, last, used = seen
        say(f"work {crate} {began:.1f} {last:.1f} {used:.1f}")

    def watch(top):
        seen = {}
        while not ended.wait(PAUSE):
            now, checks = time.time(), checks_below(top)
            for number in [it for it in seen if it not in checks]:
                work(seen.pop(number))
            for number, (crate, used) in checks.items():
                began, most = (seen[number][1], seen[number][3]) if number in seen else (now, 0.0)
                seen[number] = (crate, began, now, max(used, most))
        for it in seen.values():
            work(it)

    began = time.time()
    child = subprocess.Popen(sys.argv[1:], stdout=subprocess.PIPE, stderr=subprocess.STDOUT)
    watcher = threading.Thread(target=watch, args=(child.pid,))
    watcher.start()
    for line in child.stdout:
        say("| " + line.decode(errors="replace").rstrip("\n"))
    status = child.wait()
    ended.set()
    watcher.join()
    used = os.times()
    say(f"all {began:.1f} {time.time():.1f} {used.children_user + used.children_system:.1f}")
    return status if status >= 0 else 128 - status


sys.exit(main())

"""Starts the launcher of COPY in the foreground of a terminal and stops it once its rt has a child at work. INT comes from the terminal to all
in the foreground, another signal to the launcher alone. Prints the exit status; ROOM/err gets what was said, ROOM/left the processes that
are then at work.

    stopped.py COPY ROOM SIGNAL WORDS..
"""
import os
import pty
import select
import signal
import sys
import termios
import time

copy, room, how, *words = sys.argv[1:]
END = b"\x1a"
# the terminal's first process stays until all was seen: its end would end the others
news, tell = os.pipe()
first, terminal = pty.fork()
if first == 0:
    run = os.fork()
    if run == 0:
        os.setpgid(0, 0)
        signal.signal(signal.SIGTTOU, signal.SIG_IGN)
        os.tcsetpgrp(0, os.getpid())
        # a ^C would take away what the terminal has not handed on yet
        modes = termios.tcgetattr(0)
        modes[3] |= termios.NOFLSH
        termios.tcsetattr(0, termios.TCSANOW, modes)
        # the tests may run in the background, where two of these are ignored
        for name in (signal.SIGINT, signal.SIGQUIT, signal.SIGTTOU):
            signal.signal(name, signal.SIG_DFL)
        os.execv(copy + "/reedtassel", ["reedtassel", *words])
    os.write(tell, b"%d\n" % run)
    ended = os.waitpid(run, 0)[1]
    # the last that the terminal hands on
    os.write(1, END)
    os.write(tell, b"%d\n" % os.waitstatus_to_exitcode(ended))
    signal.pause()
run = int(os.read(news, 100))
while not os.path.exists(copy + "/children"):
    time.sleep(0.01)
time.sleep(float(os.environ.get("LATER", "0.05")))
# AGAIN: how long after the first the second comes
for pause in (0, *map(float, os.environ.get("AGAIN", "").split())):
    time.sleep(pause)
    if how == "INT":
        os.write(terminal, b"\x03")
    else:
        os.kill(run, getattr(signal, "SIG" + how))
print(os.read(news, 100).decode().strip())


def at_work(pid):
    try:
        return open(f"/proc/{pid}/stat").read().rsplit(") ", 1)[1][0] not in "ZX"
    except OSError:
        return False


# one that was killed may take a moment to end
for _ in range(20):
    left = [pid for pid in open(copy + "/children").read().split() if at_work(pid)]
    if not left:
        break
    time.sleep(0.02)
open(room + "/left", "w").write(" ".join(left))
said = b""
while END not in said and select.select([terminal], [], [], 10)[0]:
    said += os.read(terminal, 10000)
open(room + "/err", "wb").write(said.partition(END)[0].replace(b"\r\n", b"\n").replace(b"^C", b""))
for pid in left:
    os.kill(int(pid), signal.SIGKILL)
os.kill(first, signal.SIGKILL)

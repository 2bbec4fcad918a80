"""progress [both]: `stun lines` with standard error a terminal. Lines come slowly until it has told three times how far it is, and what
it told must add up. Prints that all was right, or what was told. With `both` standard output is the terminal too."""
import os
import pty
import re
import subprocess
import sys
import time

both = "both" in sys.argv
ours, theirs = pty.openpty()
began = time.monotonic()
stun = subprocess.Popen(["./stun", "lines"], stdin=subprocess.PIPE, stdout=theirs if both else subprocess.DEVNULL, stderr=theirs)
os.set_blocking(ours, False)


def told():
    try:
        return os.read(ours, 65536)
    except BlockingIOError:
        return b""


said, fed = b"", 0
while said.count(b"second") < 3 and time.monotonic() - began < (1.5 if both else 30):
    stun.stdin.write(b"# a remark\n00\n")
    stun.stdin.flush()
    fed += 1
    time.sleep(0.1)
    said += told()
took = time.monotonic() - began
stun.stdin.close()
status = stun.wait()
said += told()
if both:
    print("only answers" if said == b"refused 1\r\n" * fed else said, "and it ends with", status)
    sys.exit()
rest, done, good = said, 0, 2 < took < 30  # three reports are more than two seconds
while report := re.match(rb"\r(\d+) lines, (\d+) in the last second ", rest):
    now, more = int(report[1]), int(report[2])
    good = good and more == now - done and now <= fed
    rest, done = rest[report.end():], now
if good and rest == b"\r%d lines, done                    \r\n" % fed:
    print("three reports that add up, and the last line; it ends with", status)
else:
    print(fed, "lines in", took, "seconds:", said)

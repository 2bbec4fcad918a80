"""talk: a conversation with `stun write`, each line given only when the one before it has been answered."""
import subprocess

stun = subprocess.Popen(["./stun", "write"], stdin=subprocess.PIPE, stdout=subprocess.PIPE)
for line in [b"buffer 20", b"begin 0 1 000102030405060708090a0b", b"raw 1 - -", b"show"]:
    stun.stdin.write(line + b"\n")
    stun.stdin.flush()
    print(line.decode(), "->", stun.stdout.readline().decode(), end="")
stun.stdin.close()
print(stun.stdout.read().decode() + "ends with", stun.wait())

# What the calls in tests/program use beside ./stun. $work is an empty folder, another one for each call.
programs=$PWD/tests/program

# a datagram of tests/program/datagrams.hex, in hex
datagram() { sed -n "/^# $1:/{n;p;}" tests/program/datagrams.hex; }

# hex text as bytes
bytes() { python3 -c 'import sys; sys.stdout.buffer.write(bytes.fromhex(sys.stdin.read()))'; }

# so many noughts
zeros() { head -c "$1" /dev/zero | tr '\0' '0'; }

# the words of a text, one to a line
each_word() { tr -s ' \n' '\n'; }

# a call whose standard output is a terminal
terminal() { python3 "$programs/terminal.py" "$@"; }

# a call whose standard input breaks off with an error
breaking() { python3 tests/program/breaking.py "$@"; }

# a call whose standard output has room for so many bytes
narrow() { python3 tests/program/narrow.py "$@"; }

# A tree with our launcher in $work/tree, and a program that is a line of sh; rt, which it asks for a proof, is a line of sh too.
tree() {
    mkdir -p "$work/bin" "$work/tree/crates/stun/src" "$work/tree/crates/stun/out" "$work/tree/tools"
    cp stun "$work/tree/stun"
    cp tools/prove tools/reached "$work/tree/tools"
    echo stun: >"$work/tree/crates.txt"
    touch "$work/tree/crates/stun/src/main.rt"
    printf '#!/bin/sh\n%s\n' "$1" >"$work/tree/crates/stun/out/stun"
    printf '#!/bin/sh\necho "rt $* in $(basename "$PWD")" >>"$work/asked"\n%s\n' "${2-:}" >"$work/bin/rt"
    printf '#!/bin/sh\nprintf "%%s\\n" "$(command -v env)" "$1" "a word"\n' >"$work/tree/tools/words"
    chmod +x "$work/tree/crates/stun/out/stun" "$work/bin/rt" "$work/tree/tools/words"
    export work PATH="$work/bin:$PATH"
    cd "$work/tree" || exit
}

# runs the tree's launcher, and tells what it wrote, what it ends with and what rt was asked
launch() {
    ./stun "$@" >"$work/said" 2>&1
    echo "ends with $?" >>"$work/said"
    sed "s|$work|WORK|" "$work/said"
    [ ! -e "$work/asked" ] || cat "$work/asked"
    rm -f "$work/asked"
    sleep 0.05 # so that what is edited next is newer
}

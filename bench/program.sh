# What the scripts of this folder share: the program, built where it isn't yet, a folder for files, and how
# instructions are counted.
top=$(cd "$(dirname "${BASH_SOURCE[0]}")/.." && pwd)
command -v valgrind >/dev/null || { echo "valgrind is wanted: apt-get install valgrind" >&2; exit 1; }
unset TRANSMUTE_REPORT_UNPROVED
"$top/bin/transmute_report" </dev/null >/dev/null || exit 1
program=$top/crates/transmute_report/out/transmute_report
work=$(mktemp -d)
trap 'rm -rf "$work"' EXIT

instructions() { # FILE
    valgrind --tool=callgrind --callgrind-out-file=/dev/null "$program" <"$1" 2>&1 >/dev/null |
        awk '/Collected/ { print $4 }'
}

# The greatest memory of a run, in kB.
memory_of() { # FILE
    /usr/bin/env time -f '%M' "$program" <"$1" 2>&1 >/dev/null | tail -n 1
}

# A line on a file: its bytes, the instructions and the seconds that a run over it takes, and what it writes.
cost_of() { # FILE WHAT
    /usr/bin/env time -f '%e' "$program" <"$1" >"$work/out" 2>"$work/seconds"
    printf '%s, %7d bytes: %12d instructions, %s s: %s\n' "$2" "$(wc -c <"$1")" "$(instructions "$1")" \
        "$(tail -n 1 "$work/seconds")" "$(tail -n 1 "$work/out")"
}

# The most bytes of stack that a run takes, by valgrind's massif.
stack_of() { # FILE
    valgrind --tool=massif --stacks=yes --heap=no --massif-out-file="$work/massif" "$program" <"$1" >/dev/null 2>&1
    awk -F= '/^mem_stacks_B/ { if ($2 > most) most = $2 } END { print most }' "$work/massif"
}

# A union of so many structs of as many bytes, of which the i-th has a field of its own type as its i-th byte, and `u8`
# elsewhere.
overlapping() { # ALTERNATIVES TYPE-OF-THE-OWN-BYTE
    local i j
    for i in $(seq "$1"); do
        echo "#[repr(C)] pub struct A$i {"
        for j in $(seq "$1"); do [ "$i" = "$j" ] && echo "pub f$j: $2," || echo "pub f$j: u8,"; done
        echo '}'
    done
    echo '#[repr(C)] pub union U {'
    for i in $(seq "$1"); do echo "pub a$i: A$i,"; done
    echo '}'
}

# To be sourced: stored files put together field by field into the file $file. These lines are
# the only encoder that the stored tables go through; the generator has its own.

put() { local text; printf -v text '\\x%02x' "$@"; printf "$text"; }
put_number() { put $(($1 >> 24 & 255)) $(($1 >> 16 & 255)) $(($1 >> 8 & 255)) $(($1 & 255)); }
frame() { put_number "$(wc -c <"$1")"; cat "$1"; } # a file after its length

bytes() { put "$@" >>"$file"; }
number() { put_number "$1" >>"$file"; }
header() { bytes 1 0 3 1 "$1" "$2"; resources=$2; }               # N M
subsystem() { bytes 2 0 9; number "$1"; number "$2"; bytes "$3"; } # P Q n
task() {                                                          # T C D c...
    bytes 3 0 $((12 + 4 * resources))
    local time
    for time in "$@"; do number "$time"; done
}
cut_to() { head -c "$1" "$file" >"$file.cut"; mv "$file.cut" "$file"; }
change() { # OFFSET BYTE
    put "$2" | dd of="$file" bs=1 seek="$1" conv=notrunc status=none
}
left_over() { head -c "$1" /dev/zero | tr '\0' "$2" >>"$file"; }

table_a() { # D of subsystem 1, c2 and D of subsystem 3
    header 3 2
    subsystem 50 10 1; task 134 20 "${1:-134}" 6 0
    subsystem 50 2 1; task 96 2 96 0 2
    subsystem 70 30 1; task 100 30 "${3:-100}" 10 "${2:-4}"
}
one_task() { header 1 1; subsystem "$1" "$2" 1; task 100 "$3" 100 "$3"; } # P Q c, C equal to c
full() { # every count at 8
    local s i l accesses
    header 8 8
    for s in 1 2 3 4 5 6 7 8; do
        subsystem $((300 + 40 * s)) $((8 + 3 * s)) 8
        for i in 1 2 3 4 5 6 7 8; do
            accesses=()
            for l in 1 2 3 4 5 6 7 8; do
                accesses+=($(((s * i + 3 * l) % 7 == 0 && i > 5 - s % 4 ? (s + i + l) % 3 : 0)))
            done
            task $((2500 + 600 * i)) 3 $((1500 + 500 * i - 100 * s)) "${accesses[@]}"
        done
    done
}

# To be sourced: what counting needs, built into the folder $work. `ours FRAMES` and `peer FRAMES` print the executed instructions of
# our bay_many and of the peer's fast engine on a file of frames, both compiled for x86-64 at full optimisation, under Debian's
# qemu-user with the plugin count.c; what they wrote is left in $work/out. Needs the packages qemu-user and gcc, and builds bay_many by
# scripts/start; $bay_many is where it lies.
command -v qemu-x86_64 >/dev/null || { echo "bench: install qemu-user first" >&2; exit 2; }
: | "$root/scripts/start" bay_many >/dev/null
"${HOSTCC:-gcc}" -O2 -fPIC -shared -o "$work/count.so" "$root/tests/bench/count.c"
CC=${CC:-gcc} "$root/tests/peer/build" bench "$work/peer"
: > "$work/empty.bin"

bay_many=$root/crates/bay_many/out/bay_many
counted() { # frames, program...
    local frames=$1
    shift
    qemu-x86_64 -plugin "$work/count.so" "$@" < "$frames" 2>&1 >"$work/out" | sed -n 's/^instructions //p'
}
ours() { counted "$1" "$bay_many"; }
peer() { counted "$1" "$work/peer" fast; }
ours_start=$(ours "$work/empty.bin")
peer_start=$(peer "$work/empty.bin")

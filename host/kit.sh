# kit.sh: where the toolchain stands, and how an x86-64 program is run on this machine: as it is, and on Arm by the toolchain's emulator.
# Sourced by bash, for run and host/common.sh; whoever sources it has a function `fail` that says a message and ends.

machine=$(uname -m)

# find_kit: leaves the toolchain's folder in `kit` (the page that `rt doc` names stands in it), and in `runner` the words that stand before a
# program to run it here. rt does not start where standard input is a folder, so it is not given the caller's.
find_kit() {
    local guide emulator
    guide=$(rt doc </dev/null) || fail "'rt doc' fails: is the toolchain installed?"
    kit=$(dirname "$guide")
    runner=()
    case $machine in
        x86_64) ;;
        aarch64)
            emulator=$kit/on/aarch64/toolchain
            [ -x "$emulator/bin/qemu-x86_64" ] || fail "no emulator in $emulator/bin"
            runner=("$emulator/bin/qemu-x86_64" "$emulator/lib/ld-linux-x86-64.so.2" --library-path "$emulator/lib") ;;
        *)
            fail "no way to run x86-64 programs on $machine: the toolchain has an emulator for aarch64 alone" ;;
    esac
}

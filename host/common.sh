# common.sh: what host/build and host/test share: where things are, and how a C program is compiled, linked and run.
# Programs are x86-64; host/kit.sh says how they are run. Sourced by bash.

host=$(CDPATH='' cd -- "$(dirname -- "${BASH_SOURCE[0]}")" && pwd)
top=$(dirname "$host")
out=$top/target/host
archive=$top/crates/nizhalepu/out/libnizhalepu.a
damages=69 # the errors that independent/ can be built with
duration_damages=" 33 34 " # those of them that are in the durations
explain_damages=" 47 48 49 50 51 " # and in why a program stops
plan_damages=" 52 53 54 55 56 57 " # and in the programs of plans
totals_damages=" 58 59 60 61 62 63 64 65 66 67 68 69 " # and in the totals

fail() {
    echo "host/$(basename "$0"): $*" >&2
    exit 1
}

. "$host/kit.sh" || exit 1

# install_packages PACKAGE...: from Debian's packages, as root.
install_packages() {
    local as=()
    command -v apt-get >/dev/null || fail "there is no apt-get here; install by hand: $*"
    if [ "$(id -u)" != 0 ]; then
        command -v sudo >/dev/null || fail "not root and no sudo; install by hand: $*"
        as=(sudo)
    fi
    "${as[@]}" apt-get update || fail "apt-get update failed; wanted: $*"
    "${as[@]}" env DEBIAN_FRONTEND=noninteractive apt-get install -y --no-install-recommends "$@" ||
        fail "apt-get cannot install: $*"
}

# The toolchain, then the compiler, the linker and the C headers. clang brings the headers of the machine it runs on; on Arm those of
# x86-64 are a package of their own.
find_tools() {
    local missing=()
    find_kit
    lib=$kit/toolchain/lib
    [ -e "$lib/Scrt1.o" ] || fail "no C start files in $lib"
    headers=()
    command -v clang >/dev/null || missing+=(clang)
    command -v ld.lld >/dev/null || missing+=(lld)
    case $machine in
        x86_64)
            [ -e /usr/include/stdio.h ] || missing+=(libc6-dev) ;;
        aarch64)
            headers=(-isystem /usr/x86_64-linux-gnu/include)
            [ -e /usr/x86_64-linux-gnu/include/stdio.h ] || missing+=(libc6-dev-amd64-cross) ;;
    esac
    [ ${#missing[@]} = 0 ] || install_packages "${missing[@]}"
}

# compile SOURCE OBJECT [FLAG...]
compile() {
    mkdir -p "$(dirname "$2")" || fail "cannot make the folder of $2"
    clang --target=x86_64-linux-gnu "${headers[@]}" -std=c11 -O3 -fPIE -Wall -Wextra -Wpedantic \
        -I "$host" -I "$top/independent" "${@:3}" -c "$1" -o "$2" || fail "cannot compile $1"
}

# link_program NAME OBJECT...: the program target/host/NAME from the objects and the library, with the toolchain's own C library.
# On Arm target/host/NAME is a script that runs the program under the emulator.
link_program() {
    local name=$1 elf=$out/$1
    [ "$machine" = x86_64 ] || elf=$out/x86-64/$1
    mkdir -p "$(dirname "$out/$name")" "$(dirname "$elf")" || fail "cannot make the folders of $name"
    ld.lld -pie -dynamic-linker /lib64/ld-linux-x86-64.so.2 -o "$elf" "$lib/Scrt1.o" "$lib/crti.o" "$lib/crtbeginS.o" \
        "${@:2}" "$archive" "$lib/libc.so.6" "$lib/libc_nonshared.a" "$lib/libgcc.a" "$lib/crtendS.o" "$lib/crtn.o" ||
        fail "cannot link $name"
    [ "$machine" = x86_64 ] || wrap "$elf" "$out/$name"
}

# wrap ELF SCRIPT
wrap() {
    {
        printf '#!/usr/bin/env bash\nexec'
        printf ' %q' "${runner[@]}" "$1"
        printf ' "$@"\n'
    } >"$2" || fail "cannot write $2"
    chmod +x "$2" || fail "cannot make $2 a program"
}

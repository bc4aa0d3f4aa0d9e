#!/usr/bin/env bash
# run.sh: tests of the command run. `run.sh --list` names the cases; `run.sh CASE` has the status 0 if that one passes.
# Most drive a small repository of their own, whose folder has a blank in its name. Where the prover would be slow, or has to fail in a
# certain way, a stub stands for rt.
# shellcheck disable=SC2015,SC2016 # a step that fails ends its case; what stubs do is quoted
set -u

cases=(output_alone arguments on_arm anywhere unheard unkept signalled
    unproved example_wrong could_not_tell toolchain_failed half_removed empty_program bad_crates killed read_only
    two_at_once pipeline linked_anew descriptors run_killed interrupted proof_interrupted
    unknown_name help page)

top=$(CDPATH='' cd -- "$(dirname -- "${BASH_SOURCE[0]}")/../.." && pwd)
place=$(mktemp -d) || exit 1
trap 'chmod -R u+w "$place"; rm -rf "$place"' EXIT
small="$place/a repository"
deeds=$place/deeds # what stubs did, a line for each deed

# Others than root come here too: `read_only` has run called by nobody.
chmod 711 "$place" && mkdir -m 1777 "$place/tmp" && export TMPDIR=$place/tmp || exit 1

# ---- The small repository and the stubs

# small_repository: the command, and two programs: `words` prints its first two arguments, and `unproved` has an index that may be
# out of range.
small_repository() {
    mkdir -p "$small/host" "$small/crates/words/src" "$small/crates/unproved/src" &&
        cp "$top/run" "$small/run" && cp "$top/host/kit.sh" "$small/host/kit.sh" || return 1
    printf '%s:\n' words unproved >"$small/crates.txt"
    cat >"$small/crates/words/src/main.rt" <<'END'
#![tactic(auto)]

use std::env::{Env, FillError};
use std::io::Write;

fn show(rt: &HostRuntime, i: usize) {
    let mut word = [0u8; 4096];
    let n = match rt.arg(i, &mut word) {
        Ok(n) => n,
        Err(FillError::TooLong) => word.len(),
        Err(FillError::NotPresent) => 0,
    };
    let _ = rt.write_all(&word[..n]);
    let _ = rt.write_all(b"\n");
}

fn main(rt: HostRuntime) {
    show(&rt, 1);
    show(&rt, 2);
}
END
    printf '\n\n' >"$small/crates/words/stdout"
    cat >"$small/crates/unproved/src/main.rt" <<'END'
#![tactic(auto)]

use std::env::Env;
use std::io::Write;

fn main(rt: HostRuntime) {
    let mut bytes = [0u8; 4];
    let n = match rt.arg(1, &mut bytes) {
        Ok(n) => n,
        Err(_) => 4,
    };
    bytes[n] = 1;
    let _ = rt.write_all(&bytes);
}
END
}

# pages: of `words` among the programs, and of `rig`, which is none of them.
pages() {
    mkdir -p "$small/docs/programs" &&
        printf '# words\n\n`words` prints two words, with version 1.5\nas before. It prints\nno more.\n\n    ./run words a b\n' \
            >"$small/docs/programs/words.md" && printf '# rig\n\nDrives the box.\nBy lines.\n' >"$small/docs/programs/rig.md"
}

# script FILE: a script of the lines that are read; they may use `place` and `deeds`.
script() {
    mkdir -p "$(dirname "$1")" && {
        printf '#!/bin/sh\nplace=%q deeds=%q\n' "$place" "$deeds"
        cat
    } >"$1" && chmod +x "$1"
}

# stubbed: the small repository on an x86-64 machine, with a stub for rt. The lines that are read are what `rt run` does, in the crate's folder;
# `link` among them makes the program from $place/program, which prints its arguments.
stubbed() {
    small_repository && rm "$small/crates/words/stdout" && script "$place/stubs/uname" <<<'echo x86_64' &&
        program <<<'printf "%s\n" "$@"' && {
        echo 'if [ "$1" = doc ]; then echo "$place/kit/guide"; exit; fi'
        echo 'link() { cat "$place/program" >out/words && chmod +x out/words; }'
        cat
    } | script "$place/stubs/rt" && PATH=$place/stubs:$PATH
}

# quiet_example: the lines that are read, behind one for the folder in which run tries the program first: nothing is stored with it there.
quiet_example() {
    echo 'case $PWD in */data) exit ;; esac'
    cat
}

# program: the program of the stub for rt, of the lines that are read.
program() {
    quiet_example | script "$place/program"
}

# emulated: on an Arm machine, with a stub for the toolchain's emulator, which does what the lines say that are read.
emulated() {
    script "$place/stubs/uname" <<<'echo aarch64' && quiet_example | script "$place/kit/on/aarch64/toolchain/bin/qemu-x86_64"
}

# ends STATUS COMMAND...: what it writes is left in $place/wrote, what it says in $place/said.
ends() {
    "${@:2}" >"$place/wrote" 2>"$place/said"
    local status=$?
    [ $status = "$1" ] || { echo "status $status, not $1"; cat "$place/said"; return 1; }
}

# wrote LINE...: the last command that `ends` tried wrote these lines and no more.
wrote() {
    printf '%s\n' "$@" | diff - "$place/wrote"
}

# not_run PROGRAM MESSAGE: it is not run, and the last line that is said begins with the message.
not_run() {
    ends 1 "$small/run" "$1" </dev/null && [ ! -s "$place/wrote" ] || return 1
    [[ $(tail -n 1 "$place/said") = "run: $2"* ]] || { echo "not said: $2"; tail -n 1 "$place/said"; return 1; }
}

# comes FILE: waits for it, at most a minute.
comes() {
    local turn
    for ((turn = 0; turn < 600; turn++)); do
        [ ! -e "$1" ] || return 0
        sleep 0.1
    done
    echo "$1 does not come"
    return 1
}

# comes_in FILE PATTERN: waits for such a line, at most a minute.
comes_in() {
    local turn
    for ((turn = 0; turn < 600; turn++)); do
        ! grep -q -e "$2" "$1" || return 0
        sleep 0.1
    done
    echo "no line $2 comes"
    return 1
}

# ---- Arguments, input and output

# What the program says is status 1 also where it cannot be kept, as with a full temporary folder.
unkept() {
    stubbed <<<'link' && program <<<'echo cannot read >&2; echo answer' &&
        script "$place/stubs/tee" <<<'cat; case $* in *said.out) exit 1 ;; esac' && ends 1 "$small/run" words && wrote answer &&
        [ "$(tail -n 1 "$place/said")" = 'cannot read' ]
}

# A signal that ends run ends the program too, which has the caller's input.
signalled() {
    local signal
    stubbed <<<'link' && program <<<'echo $$ >"$place/number"; exec sleep 60' || return 1
    for signal in HUP INT QUIT TERM; do
        rm -f "$place/number"
        (trap - INT QUIT; exec setsid "$small/run" words) </dev/null >/dev/null 2>&1 &
        comes "$place/number" && sleep 0.5 && kill -s $signal $! || return 1
        wait $!
        [ $? = $((128 + $(kill -l $signal))) ] || { echo "$signal: another status"; return 1; }
        ! kill -0 "$(cat "$place/number")" 2>/dev/null || { echo "$signal: the program goes on"; return 1; }
    done
}

# A pipe carries what the program writes, and the program reads what the caller gives it, not the prover.
output_alone() {
    "$top/run" bench <"$top/crates/bench/stdin" 2>"$place/said" | cmp - "$top/crates/bench/stdout"
    [ "${PIPESTATUS[*]}" = "0 0" ] && grep -q '^rt: ' "$place/said"
}

# The arguments are the caller's, each as it was given, and the folder is any.
arguments() {
    small_repository && cd / && ends 0 "$small/run" words 'two  words' '*' && wrote 'two  words' '*'
}

# On Arm the toolchain's emulator runs the program. The stub for it prints its words; the program's folder is run's own affair.
on_arm() {
    local tools=$place/kit/on/aarch64/toolchain
    stubbed <<<'link' && emulated <<<'printf "%s\n" "$1" "$2" "$3" "${4##*/}" "$5"' && ends 0 "$small/run" words 'two  words' &&
        wrote "$tools/lib/ld-linux-x86-64.so.2" --library-path "$tools/lib" words 'two  words'
}

# Through a link, from another folder, and with standard input or standard error closed.
anywhere() {
    stubbed <<<'echo "rt: a line"; link' && ln -s "a repository/run" "$place/a link" && cd / || return 1
    ends 0 "$place/a link" words 'two  words' <&- && wrote 'two  words' &&
        [ "$("$place/a link" words 'two  words' 2>&-)" = 'two  words' ] && [ "$("$place/a link" words 'two  words' <&- 2>&-)" = 'two  words' ]
}

# Where nobody reads any more what is said, the program is run all the same.
unheard() {
    stubbed <<<'sleep 1; echo "rt: a line"; sleep 1; echo "rt: another"; link' || return 1
    "$small/run" words ran 2>&1 >"$place/wrote" | true
    [ "${PIPESTATUS[*]}" = "0 0" ] && wrote ran
}

# ---- Why a program is not run

# A proof failed.
unproved() {
    small_repository && not_run unproved 'unproved is not proved'
}

# It is proved, and does not write what is stored.
example_wrong() {
    small_repository && echo else >"$small/crates/words/stdout" && not_run words 'words is proved, but its run on its stored input went wrong'
}

# The prover could not tell, which is rt's status 3, and not 1.
could_not_tell() {
    stubbed <<<'link; echo "rattle: no verdict: out of steps" >&2; exit 3' && not_run words 'the prover could not tell' &&
        stubbed <<<'link; echo "rattle build: nothing was built, since only a proved crate is built" >&2; exit 1' &&
        not_run words 'words is not proved' && stubbed <<<'link; echo "rt: a word" >&2; exit 1' && not_run words 'rt refuses words'
}

# The toolchain fails where a library is not whole whose stamp is there, as after an interrupted gate. The cure that is told is one.
toolchain_failed() {
    small_repository && mkdir -p "$small/crates/seven/src" && printf 'seven:\nwords: seven\n' >"$small/crates.txt" &&
        printf '#![tactic(auto)]\n\npub fn seven() -> usize {\n    7\n}\n' >"$small/crates/seven/src/lib.rt" && ends 0 "$small/run" words || return 1
    rm "$small/crates/seven/out/rlib/seven.rlib/format" "$small/crates/words/out/words.stamp" && not_run words 'the toolchain failed' || return 1
    [[ $(tail -n 1 "$place/said") = *"in $small: rm -rf crates/*/out" ]] && (cd "$small" && rm -rf crates/*/out) &&
        ends 0 "$small/run" words a b && wrote a b
}

# The same where the program is gone whose stamp is there: rt has nothing to say.
half_removed() {
    stubbed <<<':' && not_run words 'words is proved, but ' && [[ $(tail -n 1 "$place/said") = *"in $small: rm -rf crates/*/out" ]]
}

# The same where it is empty, as a power cut can leave it: bash would run it, and nothing written with status 0 is an answer of some programs.
empty_program() {
    stubbed <<<': >out/words && chmod +x out/words' && not_run words 'words is proved, but its file is empty' &&
        [[ $(tail -n 1 "$place/said") = *"in $small: rm -rf crates/*/out" ]]
}

# A list of crates that rt does not take is neither a proof that failed nor the toolchain's failure: a library that is not there, one that
# is listed and is not there, a line that is none.
bad_crates() {
    small_repository && echo 'words: nothing' >"$small/crates.txt" && not_run words 'rt cannot begin' &&
        printf 'words: nothing\nnothing:\n' >"$small/crates.txt" && not_run words 'rt cannot begin' &&
        printf 'words:\nno line\n' >"$small/crates.txt" && not_run words 'rt cannot begin'
}

# The prover is killed, or rt is; what a killed rt had started is ended, and the next run does not wait for it.
killed() {
    stubbed <<<'link; exit 247' && not_run words 'the prover was ended by a signal' &&
        stubbed <<<'link; sleep 60 >/dev/null 2>&1 & kill -9 $$' && not_run words 'rt was ended by a signal (status 137)' &&
        stubbed <<<'link' && ends 0 timeout 20 "$small/run" words ran && wrote ran
}

# A folder that cannot be written, without an out/ and with a whole one, and a stamp that cannot be: one line, and rt is not asked. Root
# can write everywhere, and so runs this as nobody.
read_only() {
    stubbed <<<'echo called >>"$deeds"; link' && chmod -R a-w "$small" && barred crates/words/out && chmod -R u+w "$small" &&
        ends 0 "$small/run" words && rm "$deeds" && chmod -R a-w "$small" && barred crates/words/out/ || return 1
    chmod -R a+w "$small" && echo proved >"$small/crates/words/out/words.stamp" && chmod a-w "$small/crates/words/out/words.stamp" &&
        barred crates/words/out/words.stamp && [ ! -e "$deeds" ]
}

# barred FILE: run says one line, that it cannot be written.
barred() {
    local as=()
    [ "$(id -u)" != 0 ] || as=(setpriv --reuid=65534 --regid=65534 --clear-groups)
    ends 1 "${as[@]}" "$small/run" words && [ ! -s "$place/wrote" ] &&
        echo "run: $small/$1 cannot be written, and the prover works there, so words is not run" | diff - "$place/said"
}

# ---- Two at once, and a run that is ended

# The second waits with its proof, and says so once; then the programs run at the same time. The first prover waits until that is said, and
# each program until the other is there.
two_at_once() {
    stubbed <<'END' && program <<'END_OF_PROGRAM' || return 1
echo begins >>"$deeds"
turn=0
until grep -q waits "$place/said" 2>/dev/null || [ $((turn += 1)) = 100 ]; do sleep 0.1; done
echo ends >>"$deeds"
link
END
: >"$place/$1"
turn=0
until [ -e "$place/one" ] && [ -e "$place/two" ]; do [ $((turn += 1)) != 300 ] || { echo "$1 is alone"; exit; }; sleep 0.1; done
END_OF_PROGRAM
    "$small/run" words one >"$place/first" 2>&1 &
    comes "$deeds" && ends 0 "$small/run" words two && wait $! && ! grep 'is alone' "$place/first" "$place/wrote" &&
        printf '%s\n' begins ends begins ends | diff - "$deeds" &&
        [ "$(cat "$place/first" "$place/said" | grep -cxF 'run: waits for another ./run in this folder')" = 1 ]
}

# Two in one pipeline, of which the first writes more than a pipe holds.
pipeline() {
    stubbed <<<'sleep 1; link' && program <<<'if [ "$1" = write ]; then head -c 300000 /dev/zero; else wc -c; fi' &&
        ends 0 timeout 60 bash -c 'set -o pipefail; "$1" words write | "$1" words count' bash "$small/run" && wrote 300000
}

# What runs is what was proved, also where another run links the program anew as soon as it may: it is copied and loaded late here.
linked_anew() {
    stubbed <<<'link; echo linked >>"$deeds"' && emulated <<<'sleep 2; cat "$4"' && echo old >"$place/program" &&
        script "$place/stubs/cp" <<<"sleep 1; exec $(command -v cp)"' "$@"' || return 1
    "$small/run" words >"$place/first" 2>/dev/null &
    comes "$deeds" && echo new >"$place/program" && ends 0 "$small/run" words && wrote new && wait $! && echo old | diff - "$place/first"
}

# The program has no descriptor of the lock.
descriptors() {
    stubbed <<<'link' && program <<<'readlink /proc/$$/fd/*; true' && ends 0 "$small/run" words &&
        [ -s "$place/wrote" ] && ! grep '/a repository$' "$place/wrote"
}

# Where run is killed its prover goes on, and the next run waits for that.
run_killed() {
    stubbed <<<'echo begins >>"$deeds"; (sleep 2; echo ends >>"$deeds") & wait; link' || return 1
    "$small/run" words >/dev/null 2>&1 &
    comes "$deeds" && kill -9 $! && ends 0 "$small/run" words && printf '%s\n' begins ends begins ends | diff - "$deeds"
}

# A signal ends run, and its prover with all that it started, which would not hear a Ctrl-C; nothing is left of it.
interrupted() {
    local signal
    stubbed <<<'echo begins >>"$deeds"; (sleep 3; : >"$place/late") & wait; link' || return 1
    for signal in HUP INT TERM; do
        rm -f "$deeds"
        env --default-signal="$signal" "$small/run" words >"$place/wrote" 2>"$place/said" &
        comes "$deeds" && kill -s "$signal" $! || return 1
        wait $!
        [ $? = $((128 + $(kill -l "$signal"))) ] && grep -qx "run: SIG$signal came before words was proved, so it is not run" "$place/said" &&
            [ ! -s "$place/wrote" ] && [ -z "$(ls -A "$TMPDIR")" ] || { echo "$signal"; return 1; }
    done
    sleep 3
    [ ! -e "$place/late" ] && stubbed <<<'link' && ends 0 "$small/run" words ran && wrote ran && ! grep waits "$place/said"
}

# The prover itself, as a Ctrl-C ends it: no temporary file is left, and the next run proves.
proof_interrupted() {
    small_repository || return 1
    env --default-signal=INT setsid "$small/run" words >/dev/null 2>"$place/said" &
    comes_in "$place/said" '^rt: chose' && sleep 0.3 && kill -s INT -- -$! || return 1
    wait $!
    [ $? = 130 ] && [ ! -e "$small/crates/words/out/words.stamp" ] && [ -z "$(ls -A "$TMPDIR")" ] && ends 0 "$small/run" words a b && wrote a b
}

# ---- Help

# A name that is no program, a library's or none at all: the programs are listed.
unknown_name() {
    local name
    for name in nobody console '' '#'; do
        ends 2 "$top/run" "$name" && [ ! -s "$place/wrote" ] && grep -q '^    bench\>' "$place/said" || return 1
    done
    ends 2 "$top/run" && [ ! -s "$place/wrote" ] && grep -q '^    bench\>' "$place/said"
}

# Help is no mistake: each program with the first sentence of its page, then those that are no crates.
help() {
    small_repository && ends 0 "$small/run" --help && sed -i 1d "$place/wrote" && wrote 'the programs:' '    words' '    unproved' && pages &&
        ends 0 "$small/run" --help && sed -i 1d "$place/wrote" &&
        wrote 'the programs:' '    words      `words` prints two words, with version 1.5 as before.' '    unproved' \
            'built by host/build:' '    rig        Drives the box.' &&
        ends 0 "$top/run" --help && grep -q '^    bench\>' "$place/wrote"
}

# A program's page is printed as it is, or how it is called, and nothing is proved. Only the first argument asks for it.
page() {
    local name
    stubbed <<<'echo called >>"$deeds"; link' && pages || return 1
    for name in words rig; do
        ends 0 "$small/run" "$name" --help && cmp "$small/docs/programs/$name.md" "$place/wrote" || return 1
    done
    ends 0 "$small/run" unproved --help &&
        wrote 'run: ./run unproved [ARGUMENT...] proves the program unproved and runs it with these arguments' &&
        ends 2 "$small/run" nobody --help && ends 2 "$small/run" ../programs/words --help && [ ! -e "$deeds" ] &&
        ends 0 "$small/run" words a --help && wrote a --help && [ -e "$deeds" ]
}

if [ "${1-}" = --list ]; then
    echo "${cases[@]}"
elif printf '%s\n' "${cases[@]}" | grep -qxF -e "${1-}"; then
    "$1"
else
    echo "run.sh: --list, or a case" >&2
    exit 2
fi

# shellcheck shell=sh disable=SC2154
# What the commands have in common: their words and exit statuses, and that the program which they run is that of the present sources.
# Plain POSIX sh. A command begins with three lines, its own name, this folder (links to the command are followed) and this file:
#   command_name=replay
#   here=$(dirname "$(readlink -f "$0")")
#   . "$here/commands.sh"
#
# Exit statuses: 0 accepted; 3 refused; 2 wrong usage; 1 a read or a write failed, the reader left early, or the program could not be built or
# started or was ended from outside.
#
# rt leaves a program in crates/NAME/out/NAME. The commands run a copy of it, build/bin/NAME, which no rt sets aside or writes over while they run;
# beside it stands in NAME.made-from what it was made from:
#   sources SUM     what was proved (sum_of_sources)
#   program SUM     of the program itself, so that another one in its place is recognised
#   kit WORDS       what proved and built it (present_kit)
#   commit WORDS    of the sources (present_commit)

# With CDPATH set, cd may go elsewhere, and prints where it went: ours and rt's.
unset CDPATH

say() {
    printf '%s: %s\n' "$command_name" "$*" >&2
}

fail() {
    say "$@"
    exit 1
}

# ---- To run a program

# Opens standard output a second time, as descriptor `$output`, by which it can be reached inside $( ) too. The caller may hand over a file as
# /dev/fd/N: so it is a descriptor that is not in use or, where all are, one that none of the files is.
open_output() { # FILE...
    { true 3>&1; } 2>/dev/null || fail 'write failed' # it is closed
    for output in 9 8 7 6 5 4 3; do
        is_open "$output" || break
    done
    if is_open "$output"; then
        for output in 9 8 7 6 5 4 3; do
            case "$* " in
            *"/fd/$output "*) ;;
            *) break ;;
            esac
        done
    fi
    eval "exec $output>&1"
}

is_open() { # DESCRIPTOR
    { true >&"$1"; } 2>/dev/null
}

# Starts a program in the place of the shell that calls this. Programs are for x86-64: on another machine the kit's emulator runs them, with the
# kit's loader and C library, where the kit has one.
start_program() { # PROGRAM
    machine=$(uname -m)
    if [ "$machine" != x86_64 ]; then
        rt=$(readlink -f "$(command -v rt)")
        toolchain=${RATTLE_HOME:-${rt%/bin/rt}}/on/$machine/toolchain
        if [ -x "$toolchain/bin/qemu-x86_64" ]; then
            exec "$toolchain/bin/qemu-x86_64" "$toolchain/lib/ld-linux-x86-64.so.2" --library-path "$toolchain/lib" "$1"
        fi
    fi
    exec "$1"
}

# Prints what is to be said of a program that ended with this status, having said these words. A proved program itself always ends with 0: any
# other status is the shell's, above 128 for a signal. A program that was ended so has said nothing, which is no sign that its input is accepted.
how_it_ended() { # STATUS WORDS
    if [ "$1" -eq 141 ]; then
        echo 'the reader left early'
    elif [ "$1" -gt 128 ]; then
        echo "ended from outside (status $1)"
    elif [ "$1" -ne 0 ]; then
        echo "the program cannot be started (status $1): it is not executable, not for this machine, or its loader is missing"
    elif [ "$2" = 'write failed' ] && { [ -p "/dev/fd/$output" ] || [ -S "/dev/fd/$output" ]; }; then
        # A program is not ended by the signal of a broken pipe: a reader that left makes a write fail, and on a pipe or a socket nothing else does.
        echo 'the reader left early'
    else
        printf '%s\n' "$2"
    fi
}

# ---- What a program is made from

# Prints the line `NAME: DEP DEP` of each crate that a crate rests on, and its own, in an order in which they can be proved: level by level, a
# crate's level being one above the highest of the crates that it uses. What crates.txt says between a crate's name and its colon comes last.
crates_of() { # NAME
    NAME=$1 awk '
        function level_of(crate,    used, n, i, own) {
            if (crate in level) return level[crate]
            level[crate] = own = 0
            n = split(uses[crate], used, " ")
            for (i = 1; i <= n; i++)
                if (used[i] in uses && level_of(used[i]) >= own) own = level_of(used[i]) + 1
            found[++count] = crate
            return level[crate] = own
        }
        { sub(/#.*/, ""); colon = index($0, ":") }
        colon { name = $1; sub(/:.*/, "", name); uses[name] = substr($0, colon + 1); kind[name] = substr($0, 1, colon - 1); sub(/^[ \t]*[^ \t]+/, "", kind[name]) }
        END {
            top = level_of(ENVIRON["NAME"])
            for (now = 0; now <= top; now++)
                for (i = 1; i <= count; i++)
                    if (level[found[i]] == now) print found[i] ":" uses[found[i]] kind[found[i]]
        }' "$here/crates.txt"
}

# Prints the sum of all that rt holds a program to: of each crate that it rests on the line of crates.txt and the files, and HANDLES, where there is
# one. It is the same on every machine.
sum_of_sources() { # NAME
    (
        export LC_ALL=C
        cd "$here" || exit 1
        crates_of "$1" | {
            set --
            [ ! -e HANDLES ] || set -- HANDLES
            while IFS= read -r line; do
                printf '%s\n' "$line"
                for part in src specs proofs stdin stdout args status data; do
                    path=crates/${line%%:*}/$part
                    [ ! -e "$path" ] || set -- "$@" "$path"
                done
            done
            [ $# -eq 0 ] || find "$@" -type f -exec sha256sum {} + | sort
        } | sha256sum | cut -d ' ' -f 1
    )
}

sum_of_file() { # FILE
    sha256sum <"$1" | cut -d ' ' -f 1
}

# A sum as it stands in a sentence.
short() { # SUM
    printf '%.12s' "$1"
}

# Prints the kit's own line, and nothing where there is no kit.
present_kit() {
    rt version 2>/dev/null </dev/null | head -n 1
}

# Prints the commit of this folder, and whether its crates differ from it; unknown where the folder is no repository.
present_commit() {
    (
        unset GIT_DIR GIT_WORK_TREE GIT_INDEX_FILE
        cd "$here" || exit 1
        if [ -e .git ] && commit=$(git rev-parse --verify HEAD 2>/dev/null); then
            changes=$(git --no-optional-locks status --porcelain -- crates crates.txt)
            echo "$commit${changes:+ with changes}"
        else
            echo unknown
        fi
    )
}

# Reads what is recorded of a program. All is empty where nothing is.
read_record() { # NAME
    made_sources='' made_program='' made_kit='' made_commit=''
    [ -r "$here/build/bin/$1.made-from" ] || return 0
    while read -r key words; do
        case $key in
        sources) made_sources=$words ;;
        program) made_program=$words ;;
        kit) made_kit=$words ;;
        commit) made_commit=$words ;;
        esac
    done <"$here/build/bin/$1.made-from"
}

# Takes over a program that rt has just made, and records it, where the sources are still those of this sum, which was taken before rt began. Both
# are there whole or not at all.
record_program() { # NAME SUM
    made=$here/crates/$1/out/$1 record=$here/build/bin/$1.made-from
    [ "$(sum_of_sources "$1")" = "$2" ] || fail 'the sources changed while they were proved: call it again'
    [ -f "$made" ] || fail "rt has left no program crates/$1/out/$1"
    mkdir -p "$here/build/bin" || exit 1
    # A program that runs is not written into: another one takes its name.
    cp "$made" "$here/build/bin/$1.new" || fail "cannot write build/bin/$1.new"
    {
        echo "sources $2"
        echo "program $(sum_of_file "$here/build/bin/$1.new")"
        echo "kit $(present_kit)"
        echo "commit $(present_commit)"
    } >"$record.new" || fail "cannot write $record.new"
    mv "$here/build/bin/$1.new" "$here/build/bin/$1" && mv "$record.new" "$record" || exit 1
}

# Puts into `wrong` why a program cannot be taken for that of the present sources, and nothing where it can.
look_at_program() { # NAME
    program=$here/build/bin/$1 wrong=''
    read_record "$1"
    present_sources=$(sum_of_sources "$1")
    [ -n "$present_sources" ] || fail "the sources of $1 cannot be summed up (awk, find, sort and sha256sum are wanted)"
    if [ ! -f "$program" ]; then
        wrong='there is no program yet'
    elif [ "$made_program" != "$(sum_of_file "$program")" ]; then
        wrong='nothing tells which sources the program was made from'
    elif [ "$made_sources" != "$present_sources" ]; then
        wrong="the program was made from other sources ($(short "$made_sources"), commit $made_commit) than the present ones ($(short "$present_sources"))"
    elif [ -n "$kit" ] && [ "$made_kit" != "$kit" ]; then
        wrong='the program was made with another kit'
    fi
}

# ---- To make sure of a program

# Has `$program` be that of the present sources, or ends. Without the kit another one is not used: numbers by a rule that is no longer the one
# in the sources are worse than none.
make_sure_of_program() { # NAME
    kit=$(present_kit)
    look_at_program "$1"
    if [ -n "$kit" ]; then
        [ -z "$wrong" ] || build_program "$1" || exit 1
    elif [ -n "$wrong" ]; then
        fail "$wrong, and there is no kit here to prove and build it (rt version does not answer; README.md says what to install)"
    else
        say "there is no kit here; the program was made from the sources $(short "$made_sources") (commit $made_commit), which are the present ones"
    fi
}

# Builds a program, one run at a time: two would write over each other's files. The system gives the lock back whenever its holder ends, so none
# is left behind. (flock is in util-linux, with the setpriv that rt calls; without it there is no lock.)
build_program() { # NAME
    mkdir -p "$here/build/log" || return 1
    (
        if command -v flock >/dev/null && ! flock -n 9; then
            say 'another run is building it: waiting for that'
            flock 9
        fi
        look_at_program "$1"
        [ -z "$wrong" ] || prove_and_build "$1"
    ) 9>"$here/build/commands.lock"
}

# Has rt prove and build a program over the crates that it rests on, the lowest first, and records what it was made from. What did not change since
# rt proved it here is not proved again. Says at which crate of how many it is: in one line that moves on a terminal, elsewhere in a line for each
# crate that rt had something to say of, since it says nothing of a library that is built already.
prove_and_build() { # NAME
    say "$wrong: it is proved and built first, which can take minutes (rt run in crates/$1)"
    log=$here/build/log/$1.command name=$1
    # shellcheck disable=SC2046
    set -- $(crates_of "$1" | cut -d : -f 1)
    crates=$# number=0
    : >"$log" || fail "cannot write $log"
    for crate; do
        number=$((number + 1))
        show_crate "proving crate $number of $crates, $crate"
        if ! said=$(prove_crate "$crate" "$name" 2>&1); then
            show_crate ''
            printf '%s\n' "$said" >>"$log"
            cat "$log" >&2
            fail "it could not be built: crates/$crate"
        fi
        [ -z "$said" ] || {
            printf '%s\n' "$said" >>"$log"
            [ -t 2 ] || say "crate $number of $crates: $crate proved"
        }
    done
    show_crate ''
    record_program "$name" "$present_sources"
    say 'proved and built'
}

# Has rt prove one crate: of the libraries below a program the library, of the program itself the program, which is then run on no input.
prove_crate() { # NAME PROGRAM
    cd "$here/crates/$1" || return 1
    if [ "$1" = "$2" ]; then
        rt run </dev/null
    else
        rt lib </dev/null
    fi
}

# Writes over the line of a terminal.
show_crate() { # WORDS
    [ ! -t 2 ] || printf '\r%s\033[K' "${1:+$command_name: $1}" >&2
}

# Prints the commit, the sum of what was proved, and the kit that proved it.
print_version() { # NAME
    kit=''
    look_at_program "$1"
    echo "$1"
    echo "commit $(present_commit)"
    if [ -z "$wrong" ]; then
        echo "proved $made_sources"
        echo "kit $made_kit"
    else
        echo "not proved $present_sources: $wrong"
    fi
}

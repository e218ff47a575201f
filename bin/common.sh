# What the scripts beside this file share; it is read by them and not run. A script sets `name`, the program's crate, and
# `help`, its usage, and calls `serve "$@"`.
#
# Only a program that passed its check is run: `rt run` proves and links it, and it writes its stored output for its stored
# input. So a program that failed the second stands in its crate's out/ too. Hence a stamp of this file's own,
# target/checked/NAME, written when the check has passed: a hash of the files that went into the check, one of the program, and
# the toolchain's version. All go by content, so that a file that was only touched costs no check.
#
# bin/install copies this file too, with the scripts and the programs. Beside it then stands `installed`, which says what was
# installed and has each program's hash: there is nothing to check, and a program that is not the one installed is not run.

here=$(cd "$(dirname "$(readlink -f "${BASH_SOURCE[0]}")")" && pwd -P) || exit 3
root=${here%/*}
program=$root/crates/$name/out/$name
stamp=$root/target/checked/$name
installed=$here/installed
[ ! -f "$installed" ] || program=$here/programs/$name
# the command that proves and builds $program, at the top of the repository
build=(prove_and_try "$name")

say() { printf '%s: %s\n' "$name" "$*" >&2; }

# Proves, builds and runs a program on its stored input, where it has to write its stored output.
prove_and_try() ( # CRATE
    cd "crates/$1" || exit
    written=$(mktemp) || exit
    trap 'rm -f "$written"' EXIT
    rt run <stdin >"$written" || exit
    cmp "$written" stdout
)

# The crates of the repository that the program is made of, itself among them, one a line.
crates_of_program() {
    awk -v name="$name" '
        { sub(/#.*/, ""); at = index($0, ":") }
        at { split(substr($0, 1, at - 1), words, " "); needs[words[1]] = substr($0, at + 1) }
        function take(crate, count, parts, k) {
            if (!(crate in needs) || crate in taken) return
            taken[crate] = 1
            print crate
            count = split(needs[crate], parts, " ")
            for (k = 1; k <= count; k++) take(parts[k])
        }
        END { take(name) }' crates.txt
}

# One hash of crates.txt and of every file of those crates, but for the must-fail edits, which are no part of the program, and
# what rt keeps.
sources() {
    (
        cd "$root" || exit
        folders=$(crates_of_program | sed 's|^|crates/|')
        [ -n "$folders" ] || exit
        # a crate's name has no character that the shell would take apart
        # shellcheck disable=SC2086
        find crates.txt $folders \( -name must-fail -o -name out \) -prune -o -type f -print0 | LC_ALL=C sort -z | xargs -0 sha256sum
    ) | sha256sum
}

# What the stamp has to say for the program to be run. Without rt on the path its version is taken to be the stamp's.
state() {
    echo "sources $(sources)"
    echo "program $(sha256sum <"$program")"
    echo "toolchain $(rt version 2>/dev/null || sed -n 's/^toolchain //p' "$stamp")"
}

is_built() { [ -x "$program" ]; }
is_checked() { is_built && [ -f "$stamp" ] && [ "$(state)" = "$(cat "$stamp")" ]; }

# Called when the program has just passed its check.
write_stamp() { mkdir -p "${stamp%/*}" && state >"$stamp.new" && mv "$stamp.new" "$stamp"; }

# Has the toolchain prove, build and run the program, and writes the stamp. The program goes first: rt would otherwise call it
# unchanged without a look at it.
check() {
    if ! command -v rt >/dev/null; then
        say "the program is not built, or not from these files, and rt, the Rattle toolchain, which would prove and build it, is not on the path"
        return 1
    fi
    say "proving and building the program; this takes some minutes, once"
    local before
    before=$(sources)
    rm -f "$stamp" "$program"
    if ! (cd "$root" && "${build[@]}") </dev/null >&2; then
        say "the check failed, and the program was not run: see above"
        return 1
    fi
    if ! is_built || [ "$(sources)" != "$before" ]; then
        say "there is no program, or its files changed while it was checked: nothing was run"
        return 1
    fi
    write_stamp
}

is_installed() {
    [[ $(cat "$installed") == *$'\n'"program $name $(sha256sum <"$program")"* ]] && return
    say "$program is not the program that was installed: install it again"
    return 1
}

# One check at a time: a second process waits and finds the first one's stamp.
ensure_checked() {
    if [ -f "$installed" ]; then
        is_installed
        return
    fi
    is_checked && return
    mkdir -p "$root/target" || return
    {
        flock 9 || return
        is_checked || check 9>&-
    } 9>"$root/target/checked.lock"
}

version() {
    local commit changed=
    if [ -f "$installed" ]; then
        sed -n "s/^commit /$name, commit /p; s/^toolchain //p" "$installed"
        return
    fi
    if commit=$(git -C "$root" rev-parse --verify HEAD 2>/dev/null); then
        [ -z "$(git -C "$root" status --porcelain 2>/dev/null)" ] || changed=", with changes that are not committed"
    else
        commit=unknown
    fi
    echo "$name, commit $commit$changed"
    rt version 2>/dev/null || echo "rt is not on the path$(sed -n 's/^toolchain /; the program was checked with /p' "$stamp" 2>/dev/null)"
}

# An installed program is called by its name, and is built already.
usage() {
    if [ -f "$installed" ]; then
        printf '%s\n' "$help" | sed "s|bin/$name|$name|; /^The first run has/d"
    else
        printf '%s\n' "$help"
    fi
}

# Runs the program. It has no exit status of its own, so that what it says on standard error gives the script its 1.
run_program() {
    local said status
    { said=$("$program" 2>&1 >&3 3>&-); } 3>&1
    status=$?
    if [ -n "$said" ]; then
        printf '%s\n' "$said" >&2
        [ "$status" != 0 ] || status=1
    fi
    return "$status"
}

is_open() { [ -e "/dev/fd/$1" ]; }

serve() {
    case $#:${1-} in
    0:) ;;
    1:--help | 1:-h)
        usage
        exit
        ;;
    1:--version)
        version
        exit
        ;;
    *)
        say "it takes no argument but --help and --version"
        usage >&2
        exit 2
        ;;
    esac
    # a descriptor that is closed would be given to the next file that the shell opens
    is_open 0 || { say "standard input is closed" && exit 1; }
    is_open 1 || { say "standard output is closed" && exit 1; }
    if [ -t 0 ]; then
        usage >&2
        exit 2
    fi
    ensure_checked || exit 3
    run_program
    exit
}

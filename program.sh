# Read by ./run, ./draw and c/build: has rt prove and build what they run.

die() { printf '%s: %s\n' "$0" "$1" >&2; exit "${2:-2}"; }

# The step file, or none and the steps on standard input.
take_steps() {
    [ $# -le 1 ] || die "one step file at most, or none and the steps on standard input"
    [ $# -eq 1 ] || return 0
    [ -r "$1" ] && [ ! -d "$1" ] || die "cannot read the file $1"
    exec <"$1"
}

# The command rt itself, behind the links to it, and the folder of its kit.
find_kit() {
    rt=$(command -v rt) && rt=$(readlink -f "$rt") || die "no Rattle toolchain: the command rt is not on the PATH"
    kit=${rt%/bin/rt}
}

# build run CRATE, build lib CRATE: proves a program, or an archive, and builds it as crates/CRATE/out/CRATE, or
# crates/CRATE/out/libCRATE.a, if that is still to be done or a file has changed. In the repository's folder.
build() {
    find_kit
    case $1 in run) built=$2 ;; *) built=lib$2.a ;; esac
    log=target/$built.log
    stamp=target/$built.stamp
    built=crates/$2/out/$built

    # Newer than the last build: a file that this one may depend on. What rt writes to out/ is none.
    if [ -f "$built" ] && [ -f "$stamp" ] &&
        [ -z "$(find crates.txt "$rt" crates/*/src crates/*/specs crates/*/proofs -newer "$stamp" | head -n 1)" ]; then
        return 0
    fi
    printf '%s: proving and building %s (some minutes, the first time only)\n' "$0" "$built" >&2
    mkdir -p target || exit 2
    : >"$stamp.new"
    (cd "crates/$2" && rt "$1") >"$log" 2>&1 </dev/null || die "$2 is not proved; $PWD/$log says why" 1
    mv "$stamp.new" "$stamp"
}

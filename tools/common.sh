# What the scripts of tests/, bindings/ and tools/ share. Each reads it from the top of the repository, after it has set
# `name`, the word that its messages start with.
#
# DTOA_LIB  a folder that has libdtoa_c.a; where it is not set, rt proves and makes crates/dtoa_c/out/libdtoa_c.a
# DTOA_SRC  the folder of the unchanged crate dtoa 1.0.11, with its src/lib.rs; ../shared/docs/src where it is not set
# QUICK     set and not 0: a sample will do, and where this machine lacks what a script needs, the script says so and passes

quick() { case ${QUICK:-0} in 0) return 1 ;; *) return 0 ;; esac }

# Says that something is missing here, and ends the script.
missing() { # MESSAGE
    if quick; then
        printf '%s: %s. Not run.\n' "$name" "$1"
        exit 0
    fi
    printf '%s: %s.\n' "$name" "$1" >&2
    exit 1
}

need_program() { # PROGRAM WHAT-IT-IS
    "$1" --version >/dev/null 2>&1 || missing "there is no $2 on this machine ($1 does not run)"
}

# Sets `source`, the folder of the unchanged crate.
need_source() {
    source=${DTOA_SRC:-../shared/docs/src}
    [ -f "$source/src/lib.rs" ] || missing "the unchanged crate dtoa 1.0.11 is not there: no $source/src/lib.rs (DTOA_SRC=FOLDER says where it is)"
    if ! grep -q 'html_root_url.*/dtoa/1\.0\.11"' "$source/src/lib.rs"; then
        printf '%s: %s/src/lib.rs is not that of dtoa 1.0.11, which names its own version in html_root_url.\n' "$name" "$source" >&2
        exit 1
    fi
}

# Sets `library`, the whole path of the folder with the archive. An archive that was asked for and is not there is always an error.
need_archive() {
    if [ -z "${DTOA_LIB:-}" ]; then
        (cd crates/dtoa_c && rt lib)
        library=$PWD/crates/dtoa_c/out
    elif [ -f "$DTOA_LIB/libdtoa_c.a" ]; then
        library=$(cd "$DTOA_LIB" && pwd)
    else
        printf '%s: DTOA_LIB is %s, and there is no libdtoa_c.a in it.\n' "$name" "$DTOA_LIB" >&2
        exit 1
    fi
}

# Builds the unchanged crate as target/tools/libdtoa.rlib, with the compiler's highest optimisation.
build_crate() {
    mkdir -p target/tools
    rustc --edition 2021 --crate-name dtoa --crate-type rlib -C opt-level=3 --cap-lints allow --out-dir target/tools "$source/src/lib.rs"
}

# Prints the day, the machine and the versions of what was run, for a page that a run writes.
about_this_run() {
    date -u '+%Y-%m-%d'
    sed -n 's/^model name[^:]*: *//p' /proc/cpuinfo | sort | uniq -c | sed 's/^ *\([0-9]*\) \(.*\)/processors: \1, \2/'
    echo "Rust crate: dtoa 1.0.11, compiled by $(rustc --version)"
    echo "archive: $(rt version), sha256 $(sha256sum "$library/libdtoa_c.a" | cut -c1-16)"
}

#!/bin/sh
# make bench: times our calls and the unchanged crate's, and those of ryu, fmt and Dragonbox where Debian's packages are installed;
# and our calls that read and Rust's parse, and fast_float's where it is installed.
# REPORT=1 writes docs/PERFORMANCE.md, docs/performance.svg and docs/reading.svg from the run.
# BEFORE=FOLDER also times the libdtoa_c.a in that folder, an earlier one, and reports the times before and after; CHANGE says in the
# report what lies between the two. A report without BEFORE keeps what the last one with it had to say.
set -eu
cd "$(dirname "$0")/../.."
name=bench
. tools/common.sh

need_program rustc 'Rust compiler'
need_source
need_archive
build_crate

# What rustc is to be told of the other libraries, and what is said of them.
words='' told=''
timed() { # NAME WORDS
    told="$told, $1"
    words="$words $2"
}
untimed() { # NAME WHY
    echo "bench: $1 is not timed: $2"
}

# The first of the files that is there; nothing where none is.
first() { for file; do if [ -f "$file" ]; then echo "$file" && return; fi; done; }

ryu=$(first /usr/share/cargo/registry/ryu-*/Cargo.toml)
if [ -z "$ryu" ]; then
    untimed ryu "Debian's librust-ryu-dev is not installed"
else
    folder=${ryu%/Cargo.toml}
    edition=$(sed -n 's/^edition = "\(.*\)"/\1/p' "$ryu")
    # the two conditions are those that ryu's own build script sets for a compiler of these years
    rustc --edition "${edition:-2015}" --crate-name ryu --crate-type rlib -C opt-level=3 --cap-lints allow \
        --cfg integer128 --cfg maybe_uninit --out-dir target/tools "$folder/src/lib.rs"
    timed "ryu ${folder##*-}" '--cfg ryu --extern ryu=target/tools/libryu.rlib'
fi

before=${BEFORE:-}
if [ -n "$before" ]; then
    if [ ! -f "$before/libdtoa_c.a" ]; then
        echo "bench: BEFORE is $before, and there is no libdtoa_c.a in it." >&2
        exit 1
    fi
    need_program objcopy 'objcopy of the GNU binutils'
    # both archives have the same names: the earlier one's begin with before_
    nm -g --defined-only "$before/libdtoa_c.a" | sed -n 's/^.* T dtoa_\(.*\)$/dtoa_\1 before_\1/p' >target/tools/before.names
    objcopy --redefine-syms=target/tools/before.names "$before/libdtoa_c.a" target/tools/libbefore.a
fi

# Compiles one of the files in C++.
compile() { # NAME [WORDS...]
    object=$1
    shift
    "${CXX:=c++}" -std=c++17 -O3 -DNDEBUG "$@" -c -o "target/tools/$object.o" "tools/bench/$object.cpp"
}

fmt=$(first /usr/include/fmt/compile.h)
if [ -z "$fmt" ]; then
    untimed fmt "Debian's libfmt-dev is not installed"
elif ! compile fmt -DFMT_HEADER_ONLY; then
    untimed fmt 'tools/bench/fmt.cpp does not compile'
else
    version=$(sed -n 's/^#define FMT_VERSION \([0-9]*\)0\([0-9]\)0\([0-9]\)$/\1.\2.\3/p' /usr/include/fmt/core.h)
    timed "fmt $version" '--cfg fmt -C link-arg=target/tools/fmt.o -l stdc++'
fi

dragonbox=$(first /usr/include/dragonbox-*/dragonbox/dragonbox_to_chars.h)
if [ -z "$dragonbox" ]; then
    untimed Dragonbox "Debian's libdragonbox-dev is not installed"
elif ! compile dragonbox -I "${dragonbox%/dragonbox/*}"; then
    untimed Dragonbox 'tools/bench/dragonbox.cpp does not compile'
else
    version=${dragonbox%/dragonbox/*} version=${version##*-}
    timed "Dragonbox $version" '--cfg dragonbox -C link-arg=target/tools/dragonbox.o -C link-arg=-ldragonbox_to_chars -l stdc++'
fi

fast_float=$(first /usr/include/fast_float/fast_float.h)
if [ -z "$fast_float" ]; then
    untimed fast_float "Debian's libfast-float-dev is not installed"
elif ! compile fast_float; then
    untimed fast_float 'tools/bench/fast_float.cpp does not compile'
else
    version=$(sed -n 's/^set(PACKAGE_VERSION "\(.*\)")$/\1/p' /usr/lib/cmake/FastFloat/FastFloatConfigVersion.cmake || true)
    timed "fast_float $version" '--cfg fast_float -C link-arg=target/tools/fast_float.o -l stdc++'
fi

if [ -n "$before" ]; then
    words="$words --cfg before -L native=target/tools -l static=before"
    # an earlier archive may not read yet
    if grep -q '^dtoa_read64 ' target/tools/before.names; then words="$words --cfg before_reads"; fi
fi
# shellcheck disable=SC2086
rustc --edition 2021 -C opt-level=3 --extern dtoa=target/tools/libdtoa.rlib -L "native=$library" -l static=dtoa_c $words \
    -o target/tools/bench tools/bench/main.rs
echo "bench: our calls and dtoa 1.0.11$told"
load="load before the run: $(cut -d ' ' -f 1 /proc/loadavg), on $(nproc) processors"
echo "bench: $load"
if [ -z "${REPORT:-}" ]; then exec target/tools/bench; fi

page=docs/PERFORMANCE.md
target/tools/bench --table target/tools/bench.md --plot docs/performance.svg --reading-table target/tools/reading.md \
    --reading-plot docs/reading.svg ${before:+--before target/tools/before.md} >target/tools/bench.out
cat target/tools/bench.out
sum() { sha256sum "$1/libdtoa_c.a" | cut -c1-16; }
if [ -n "$before" ]; then
    {
        printf '## Before and after%s\n\n' "${CHANGE:+: $CHANGE}"
        cat <<'END'
Our calls of two archives, in one run with the crate's, as above, and with Rust's `parse` where both archives read.

END
        cat target/tools/before.md
        printf '\n    %s\n    before: archive of sha256 %s\n    after: archive of sha256 %s\n' "$(date -u '+%Y-%m-%d')" "$(sum "$before")" "$(sum "$library")"
    } >target/tools/change.md
else
    sed -n '/^## Before and after/,$p' "$page" >target/tools/change.md
fi
{
    cat <<'END'
# Performance

`make bench REPORT=1` wrote this page and its plots; nothing on it is written by hand.

## Printing

Nanoseconds per number, and in brackets the ratio to the crate dtoa 1.0.11; below 1 is faster than the crate. A printer
prints 4,000 numbers, one in a call, into a buffer that is never cleared (ours and the crate into the same 25 bytes), then the next
printer prints the same ones, and so on through 100,000 numbers and many rounds; the median of a printer's turns counts. The heights
are spread evenly over -100 to 9000. The subnormals are above zero and have 1 to 52 significant bits, in f32 1 to 23, each number of
bits with the same chance.

In the last line a turn is one text of 4,096 numbers with a space between two, and the numbers are 102,400. We print it in one
call, into a buffer that is never cleared. The other printers print one number in a call: a Rust crate's text is pushed to a string
that is cleared before each row and has its room already, a C++ library prints straight to the text's place.

END
    cat target/tools/bench.md
    cat <<'END'

![The same figures as bars](performance.svg)

## Reading

Nanoseconds per number, and in brackets the ratio to `parse` of Rust's standard library; below 1 is faster than it. The texts are
those that we print for the numbers of the first five lines above, NaNs and infinities among the random bits. A reader is given
the bytes of a text where they stand and how many they are, one text in a call; the readers take turns as the printers do, and all
read the same patterns.

END
    cat target/tools/reading.md
    cat <<'END'

![The same figures as bars](reading.svg)

## The run

END
    about_this_run | sed 's/^/    /'
    printf '    other libraries: %s\n' "${told#, }"
    printf '    %s\n' "$load"
    tail -n 2 target/tools/bench.out | sed 's/^/    /'
    if [ -s target/tools/change.md ]; then
        echo
        cat target/tools/change.md
    fi
} >target/tools/page.md
mv target/tools/page.md "$page"
echo "bench: wrote $page, docs/performance.svg and docs/reading.svg"
tail -n 2 target/tools/bench.out

#!/usr/bin/env bash
# Runs the tests of C, Python, Rust and Go over the proved library, and the examples of their pages, README.md beside each package.
#
#     bindings/check.sh
#
# It needs the command rt. It uses a compiler, valgrind, pkg-config, Python, pytest, mypy, numpy, pyroute2, the Pythons of
# pyenv, cargo, clippy, Debian's Rust and its package of the crate netlink-packet-route, go, strace and Debian's package of
# vishvananda/netlink if they are installed, and prints and counts what it skips. CC, CXX and PYTHON name other programs than
# cc, c++ and python3. It builds in a temporary folder. The last line is `N passed, M failed, K skipped`.
set -uo pipefail
cd "$(dirname "$0")/.."
top=$PWD
work=$(mktemp -d)
trap 'rm -rf "$work"' EXIT
cc=${CC:-cc}
cxx=${CXX:-c++}
passed=0 failed=0 skipped=0
export PYTHONDONTWRITEBYTECODE=1

# step NAME COMMAND..: runs a command, counts it, and prints the end of its output if it fails
step() {
    local name=$1
    shift
    if "$@" > "$work/log" 2>&1; then
        passed=$((passed + 1))
        echo "bindings: passed: $name"
    else
        failed=$((failed + 1))
        tail -n 40 "$work/log"
        echo "bindings: FAILED: $name"
    fi
}

skip() {
    skipped=$((skipped + 1))
    echo "bindings: skipped: $1: $2"
}

has() {
    command -v "$1" > /dev/null
}

finish() {
    echo "$passed passed, $failed failed, $skipped skipped"
    [ "$failed" -eq 0 ]
    exit
}

# block LANGUAGE [FENCE]: the first block of code of a language on its page, or of what the page calls FENCE
block() {
    awk -v fence="\`\`\`${2:-$1}" '$0 == fence { inside = 1; next } inside && $0 == "```" { exit } inside' "$top/bindings/$1/README.md"
}

# fails_as_on_the_page LANGUAGE COMMAND..: whether a test fails with the output on the page of a language, but for the times
fails_as_on_the_page() {
    "${@:2}" > "$work/failure" 2>&1
    [ $? -eq 1 ] && diff <(block "$1" console | sed 1d | without_times) <(without_times < "$work/failure")
}

without_times() { sed -E 's/[0-9.]+s\b/TIME/'; }

# cut_vectors KIND: writes the stored cases and results of a kind to files, without labels (lines that begin with `# `). Only
# results of `show`, the last kind, have several lines.
cut_vectors() {
    local kind=$1 first last='$'
    first=$(($(sed "/^$kind /,\$d; /^# /d" crates/vectors/stdin | wc -l) + 1))
    sed -n "s/^$kind //p" crates/vectors/stdin > "$work/$kind.cases"
    [ "$kind" = show ] || last=$((first - 1 + $(wc -l < "$work/$kind.cases")))
    sed -n "$first,${last}p" crates/vectors/stdout > "$work/$kind.results"
}

# compare_results CALL KIND PROGRAM..: compares the results of a call for the cases of a kind with the stored ones
compare_results() {
    local call=$1 kind=$2
    shift 2
    [ -s "$work/$kind.cases" ] && "$@" "$call" < "$work/$kind.cases" | cmp - "$work/$kind.results"
}

# compare_attributes PROGRAM..: compares the attributes of the cases of `norm` with those of the independent implementation
compare_attributes() {
    python3 tools/oracle/attributes.py < "$work/norm.cases" > "$work/attributes" || return
    [ -s "$work/attributes" ] && "$@" attributes < "$work/norm.cases" | cmp - "$work/attributes"
}

# compare_all_results NAME PROGRAM..: the same of all calls
compare_all_results() {
    local name=$1
    shift
    step "C, $name: norm" compare_results norm norm "$@"
    step "C, $name: norm in pieces" compare_results pieces norm "$@"
    step "C, $name: same" compare_results same same "$@"
    step "C, $name: show" compare_results show show "$@"
    step "C, $name: show in pieces" compare_results show-pieces show "$@"
    step "C, $name: quirks" compare_results quirks spelling "$@"
    step "C, $name: why" compare_results why refusal "$@"
    if has python3; then step "C, $name: attributes" compare_attributes "$@"; else skip "C, $name: attributes" "no python3"; fi
}

exports_only_linkcap() {
    ! nm -D --defined-only "$lib/liblinkcap.so" | awk '$2 != "A" { print $3 }' | grep -v '^linkcap_' \
        && ! nm --defined-only --extern-only "$lib/liblinkcap.a" | awk 'NF == 3 { print $3 }' | grep -v '^linkcap_'
}

# Whether the loader refuses the shared library on a processor without x86-64-v2.
is_marked() { LC_ALL=C readelf --notes "$lib/liblinkcap.so" | grep 'x86 ISA needed: .*x86-64-v2'; }

page_in_c() {
    block c > "$work/norm.c"
    "$cc" -std=c11 -Wall -Wextra -Werror -I "$lib" -o "$work/norm" "$work/norm.c" "$lib/liblinkcap.a"
    "$work/norm" < samples/req-veth.bin | cmp - samples/req-veth.bin || return
    # 3 MiB of a capture that is already canonical.
    yes samples/req-veth.bin | head -n 3000 | xargs cat > "$work/long"
    [ "$(wc -c < "$work/long")" -gt $((3 << 20)) ] && "$work/norm" < "$work/long" | cmp - "$work/long" || return
    "$work/norm" < "$work/long" > /dev/full && return 1
    printf '\x30\0\0\0' | "$work/norm" 2> "$work/fault" > "$work/text"
    [ $? -eq 2 ] && [ "$(cat "$work/fault")" = "cut frame at 0" ] && [ ! -s "$work/text" ]
}

# header_in_c COMPILER: compiles linkcap.h, and the example that it begins with, by each standard. A result that isn't used is an
# error, and an enum of statuses has 32 bits, as the library's.
header_in_c() {
    local standard options=(-Wall -Wextra -Wpedantic -Wconversion -Werror -c -o /dev/null -I "$lib")
    {
        printf '#include <stdio.h>\n#include <linkcap.h>\n'
        printf 'extern char bits[sizeof(enum linkcap_status) == 4 ? 1 : -1];\n'
        printf 'void example(const uint8_t *capture, size_t length);\nvoid example(const uint8_t *capture, size_t length)\n{\n'
        sed -n '/^ \* A capture/q; s/^ \*     //p' "$lib/linkcap.h"
        printf '}\n'
    } > "$work/example.c"
    [ "$(grep -c linkcap_check "$work/example.c")" -eq 1 ] || return
    for standard in c99 c11 c17; do "$1" "-std=$standard" "${options[@]}" "$work/example.c" || return; done
    printf '#include <linkcap.h>\nvoid f(void) { linkcap_words(0, 0, 0, 0); }\n' > "$work/unused.c"
    ! "$1" "${options[@]}" "$work/unused.c" 2> /dev/null
}

# header_in_cxx: the same in C++, of the headers.
header_in_cxx() {
    local standard
    printf '#include <linkcap.h>\nlinkcap_options options;\nlinkcap_sizes sizes;\nlinkcap_progress progress;\n' > "$work/header.cc"
    printf 'linkcap_message message;\nlinkcap_attribute attribute;\nint main() { return linkcap_version() != LINKCAP_VERSION; }\n' >> "$work/header.cc"
    for standard in c++98 c++11 c++14 c++17 c++20; do
        "$cxx" "-std=$standard" -Wall -Wextra -Wpedantic -Wconversion -Werror -fsyntax-only -I "$lib" "$work/header.cc" || return
    done
    printf '#include <linkcap_golden.h>\nint main() { return linkcap_golden(0, 0, "a.lines"); }\n' > "$work/golden.cc"
    "$cxx" -std=c++11 -Wall -Wextra -pedantic -Werror -fsyntax-only -I "$lib" "$work/golden.cc"
}

# A caller whose enums are as short as can be reads the same statuses.
short_enums_in_c() {
    "$cc" -std=c11 -D_GNU_SOURCE -fshort-enums -I "$lib" -o "$work/short" bindings/c/tests/edges.c "$lib/liblinkcap.a" -pthread \
        -Wl,--wrap=malloc,--wrap=realloc,--wrap=free && "$work/short" samples/req-veth.bin
}

# golden_in_c COMPILER OPTION..: runs the tests of linkcap_golden.h, which is in C99.
golden_in_c() {
    local folder
    folder=$(mktemp -d -p "$work")
    "$1" -std=c99 -Wall -Wextra -pedantic -Werror -I "$lib" "${@:2}" -o "$folder.run" bindings/c/tests/golden.c "$lib/liblinkcap.a" \
        && LC_ALL=C "$folder.run" "$folder"
}

# The golden test of the page, which fails if the file has another MTU, and writes it.
golden_of_the_page() {
    local lines=bindings/c/tests/request.lines
    "$cc" -std=c99 -Wall -Wextra -pedantic -Werror -I "$lib" -o "$work/request" bindings/c/tests/request.c "$lib/liblinkcap.a" || return
    "$work/request" || return
    mkdir -p "$work/page/${lines%/*}" && sed 's/1450/1400/' "$lines" > "$work/page/$lines" || return
    env -C "$work/page" "$work/request" 2> "$work/report"
    [ $? -eq 1 ] && [ "$(grep '^[-+] ' "$work/report")" = $'-  IFLA_MTU 1400\n+  IFLA_MTU 1450' ] || return
    env -C "$work/page" LINKCAP_UPDATE=1 "$work/request" && cmp "$lines" "$work/page/$lines"
}

# The example of attributes of the page.
attributes_of_the_page() {
    "$cc" -std=c11 -Wall -Wextra -pedantic -Werror -I "$lib" -o "$work/vxlan" bindings/c/tests/vxlan.c "$lib/liblinkcap.a" || return
    [ "$("$work/vxlan" 10 < samples/kinds/req-vxlan.bin)" = true ] && [ "$("$work/vxlan" 9 < samples/kinds/req-vxlan.bin)" = false ]
}

# The example of linkcap(3), in a program.
manual_in_c() {
    awk '/^\.Sh EXAMPLES/ { inside = 1 } inside && /^\.Ed/ { exit } code { print } inside && /^\.Bd/ { code = 1 }' man/linkcap.3 \
        | sed 's/\\e/\\/g' > "$work/example.inc"
    cat > "$work/example.c" << 'END'
#include <inttypes.h>
#include <stdio.h>

#include <linkcap.h>

int main(void)
{
    static uint8_t capture[1 << 16];
    size_t length = fread(capture, 1, sizeof capture, stdin);
#include "example.inc"
    return 0;
}
END
    "$cc" -std=c11 -Wall -Wextra -Werror -I "$lib" -o "$work/example" "$work/example.c" "$lib/liblinkcap.a" || return
    [ "$(cat samples/lo-request.bin samples/lo-request.bin | "$work/example")" = $'0 18\n48 18' ]
}

# Runs ./install, and checks the page's program with the installed library, the programs, manuals and completion, and runs the
# commands of the page and of linkcap(3).
check_installation() {
    ./install "$work/prefix" || return
    export PKG_CONFIG_PATH=$work/prefix/lib/pkgconfig
    "$cc" -o "$work/installed" "$work/norm.c" $(pkg-config --cflags --libs linkcap) "-Wl,-rpath,$work/prefix/lib" || return
    "$work/installed" < samples/req-veth.bin | cmp - samples/req-veth.bin || return
    "$cc" -o "$work/static" "$work/norm.c" $(pkg-config --cflags --libs linkcap-static) || return
    ! readelf -d "$work/static" | grep -q liblinkcap || return
    "$work/static" < samples/req-veth.bin | cmp - samples/req-veth.bin || return
    cmp "$(pkg-config --variable=archive linkcap)" "$lib/liblinkcap.a" || return
    cmp "$work/prefix/include/linkcap_golden.h" bindings/c/linkcap_golden.h || return
    "$work/prefix/bin/linkcap" norm < samples/req-veth.bin | cmp - samples/req-veth.bin || return
    "$work/prefix/bin/linkshow" < samples/req-veth.bin | cmp - samples/req-veth.lines || return
    "$work/prefix/bin/linkshow" --version | grep -qw "lines $(sed -n 's/^#define LINKCAP_FORMAT //p' "$lib/linkcap.h")" || return
    PATH=$work/prefix/bin:$PATH linkjson samples/req-veth.bin > "$work/json" && grep -q '"value": "veth"' "$work/json" || return
    PATH=$work/prefix/bin:$PATH linkgold samples/req-veth.lines samples/req-veth.bin || return
    cmp man/linkshow.1 "$work/prefix/share/man/man1/linkshow.1" || return
    cmp man/linkcap.3 "$work/prefix/share/man/man3/linkcap_write.3" || return
    cmp man/linkcap.zsh "$work/prefix/share/zsh/site-functions/_linkcap" || return
    cmp man/linkcap.fish "$work/prefix/share/fish/vendor_completions.d/linkgold.fish" || return
    bash -c '. "$1"; complete -p linkcap linkshow' - "$work/prefix/share/bash-completion/completions/linkcap" || return
    tools/pages.py --run --prefix "$work/prefix" bindings/*/README.md man/linkcap.3
}

test_c() {
    local flags=(-std=c11 -D_GNU_SOURCE -Wall -Wextra -Werror -I "$lib")
    local wrap=(-pthread -Wl,--wrap=malloc,--wrap=realloc,--wrap=free)
    local samples=(samples/get-veth.bin samples/req-veth.bin) kind
    echo "bindings: $("$cc" --version | head -n 1)"
    step "C: build" "$cc" "${flags[@]}" -O2 -o "$work/results" bindings/c/tests/results.c "$lib/liblinkcap.a"
    step "C: build, shared" "$cc" "${flags[@]}" -O2 -o "$work/shared" bindings/c/tests/results.c -L "$lib" -llinkcap "-Wl,-rpath,$lib"
    step "C: build of the edges" "$cc" "${flags[@]}" -O2 -o "$work/edges" bindings/c/tests/edges.c "$lib/liblinkcap.a" "${wrap[@]}"
    step "C: only linkcap_* is exported" exports_only_linkcap
    step "C: the shared library is marked as code for x86-64-v2" is_marked
    for kind in norm same show refusal spelling; do cut_vectors $kind; done
    compare_all_results "static" "$work/results"
    compare_all_results "shared" "$work/shared"
    step "C: edges" "$work/edges" "${samples[@]}"
    step "C: golden" golden_in_c "$cc" -O2
    local san=(-g -O1 -fsanitize=address,undefined -fno-sanitize-recover=all)
    if echo 'int main(void) { return 0; }' | "$cc" "${san[@]}" -x c -o "$work/none" - 2> /dev/null && "$work/none"; then
        step "C, sanitizers: build" "$cc" "${flags[@]}" "${san[@]}" -o "$work/sane" bindings/c/tests/results.c "$lib/liblinkcap.a"
        step "C, sanitizers: build of the edges" "$cc" "${flags[@]}" "${san[@]}" -o "$work/sane_edges" \
            bindings/c/tests/edges.c "$lib/liblinkcap.a" "${wrap[@]}"
        compare_all_results "sanitizers" "$work/sane"
        step "C, sanitizers: edges" "$work/sane_edges" "${samples[@]}"
        step "C, sanitizers: golden" golden_in_c "$cc" "${san[@]}"
    else
        skip "C, sanitizers" "$cc has none here"
    fi
    if has clang; then
        step "C, sanitizers of clang: golden" golden_in_c clang "${san[@]}"
        step "C, clang: the header" header_in_c clang
    else
        skip "C, clang" "no clang"
    fi
    if has valgrind; then
        local grind=(valgrind -q --error-exitcode=9 --leak-check=full --show-leak-kinds=all --errors-for-leak-kinds=all)
        compare_all_results "valgrind" "${grind[@]}" "$work/results"
        step "C, valgrind: edges" "${grind[@]}" "$work/edges" samples/req-veth.bin
    else
        skip "C, valgrind" "no valgrind"
    fi
    if has "$cxx"; then
        step "C++: the headers" header_in_cxx
    else
        skip "C++: the headers" "no $cxx"
    fi
    step "C: the header" header_in_c "$cc"
    step "C: the edges, with short enums" short_enums_in_c
    step "C: the page" page_in_c
    step "C: the golden test of the page" golden_of_the_page
    step "C: the attributes of the page" attributes_of_the_page
    step "C: the manual" manual_in_c
    if ! has pkg-config; then
        skip "C: installed" "no pkg-config"
    else
        step "C: installed" check_installation
    fi
}

# The first Python that has pytest, or else the first one.
choose_python() {
    local candidate
    for candidate in ${PYTHON:-python3 /usr/bin/python3}; do
        has "$candidate" && "$candidate" -c 'import pytest' 2> /dev/null && { echo "$candidate"; return; }
    done
    for candidate in ${PYTHON:-python3}; do has "$candidate" && { echo "$candidate"; return; }; done
}

# Tests interrupted calls with the other Pythons, those of pyenv.
test_other_pythons() {
    local python version
    for python in "${PYENV_ROOT:-$HOME/.pyenv}"/versions/*/bin/python; do
        [ -x "$python" ] || continue
        version=$(basename "$(dirname "$(dirname "$python")")")
        if "$python" -c 'import sys; sys.exit(sys.version_info < (3, 8))'; then
            step "Python $version: calls that are interrupted" env -C bindings/python/tests LINKCAP_LIB_DIR="$lib" \
                PYTHONPATH="$top/bindings/python" "$python" -m unittest -q test_reentry
        else
            skip "Python $version" "older than 3.8"
        fi
    done
}

test_python_types() {
    if ! has mypy; then
        skip "Python: types" "no mypy"
    elif ! mypy --cache-dir="$work/mypy" -c 'import pytest' > /dev/null 2>&1; then
        skip "Python: types" "no pytest for mypy"
    else
        # Older versions take the keywords of a call from a record of types only with this option.
        step "Python: types" env MYPYPATH=bindings/python:bindings/python/tests mypy --strict --enable-incomplete-feature=Unpack \
            --cache-dir="$work/mypy" bindings/python/linkcap bindings/python/tests
    fi
}

test_python() {
    local python
    python=$(choose_python)
    [ -n "$python" ] || { skip Python "no Python"; return; }
    echo "bindings: $("$python" --version)"
    if ! "$python" -m venv --system-site-packages "$work/venv" > "$work/log" 2>&1; then
        skip Python "no module venv"
        return
    fi
    step "Python: pip install without a network" env LINKCAP_LIB_DIR="$lib" "$work/venv/bin/pip" install --no-index "$top/bindings/python"
    local run=("$work/venv/bin/python") tests=bindings/python/tests
    mkdir -p "$work/python"
    step "Python: the calls" env -C $tests "${run[@]}" -m unittest -q test_linkcap test_attributes test_golden test_record
    step "Python: calls that are interrupted" env -C $tests "${run[@]}" -m unittest -q test_reentry
    step "Python: installs" env -C $tests "${run[@]}" -m unittest -q test_install
    "${run[@]}" -c 'import numpy' 2> /dev/null || skip "Python: captures of numpy" "no numpy"
    if ! "${run[@]}" -c 'import pytest' 2> /dev/null; then
        skip "Python: the fixture and the page" "no pytest"
        return
    fi
    step "Python: the fixture" env -C "$work/python" "${run[@]}" -m pytest -q -p no:cacheprovider \
        "$top/bindings/python/tests/test_fixture.py"
    if "${run[@]}" -c 'import pyroute2' 2> /dev/null; then
        cp bindings/python/examples/* "$work/python"
        step "Python: the page" env -C "$work/python" "${run[@]}" -m pytest -q -p no:cacheprovider test_request.py
        sed -i 's/1450/1400/' "$work/python/test_request.py"
        # Where these variables are set, pytest's summary has the whole message, and not what fits into a line.
        step "Python: the failure on the page" fails_as_on_the_page python \
            env -u CI -u BUILD_NUMBER -C "$work/python" "${run[@]}" -m pytest -q --tb=short -p no:cacheprovider test_request.py
    else
        skip "Python: the page" "no pyroute2"
    fi
}

# The documentation can be built without the library.
rust_docs() {
    env -u LINKCAP_LIB_DIR PKG_CONFIG_PATH=/nonexistent PKG_CONFIG_LIBDIR=/nonexistent RUSTDOCFLAGS="-D warnings" \
        cargo doc -q --offline --no-deps --manifest-path bindings/rust/Cargo.toml
}

# What the page says that the example prints.
rust_finds_a_vxlan() {
    [ "$(cargo run -q --offline --manifest-path bindings/rust/Cargo.toml --example vni samples/kinds/req-vxlan.bin)" = true ]
}

# rust_fails_as_on_the_page OPTION..: the golden test of the page, whose request has another MTU, panics with the page's message
rust_fails_as_on_the_page() {
    mkdir -p "$work/changed" && cp -r bindings/rust "$work/changed" || return
    sed -i 's/1450/1400/' "$work/changed/rust/route_example/src/main.rs"
    cargo test -q --offline --manifest-path "$work/changed/rust/route_example/Cargo.toml" "$@" > "$work/failure" 2>&1 && return 1
    diff <(block rust text) <(sed -n '/^linkcap: /,/^$/p' "$work/failure" | sed '/^$/d')
}

# The oldest Rust that Cargo.toml names: Debian 12's.
test_oldest_rust() {
    local oldest
    oldest=$(sed -n 's/^rust-version = "\(.*\)"/\1/p' bindings/rust/Cargo.toml)
    if [ -x /usr/bin/cargo ] && /usr/bin/rustc --version 2> /dev/null | grep -q "^rustc ${oldest//./\\.}\."; then
        step "Rust $oldest: the calls" env RUSTC=/usr/bin/rustc RUSTDOC=/usr/bin/rustdoc CARGO_TARGET_DIR="$work/oldest" \
            /usr/bin/cargo test -q --offline --manifest-path bindings/rust/Cargo.toml
    else
        skip "Rust $oldest: the calls" "no rustc $oldest of Debian"
    fi
}

test_rust() {
    has cargo || { skip Rust "no cargo"; return; }
    echo "bindings: $(rustc --version)"
    export LINKCAP_LIB_DIR=$lib CARGO_TARGET_DIR=$work/target
    step "Rust: the calls, and examples" cargo test -q --offline --manifest-path bindings/rust/Cargo.toml
    step "Rust: the page's question about a vxlan" rust_finds_a_vxlan
    if cargo clippy --version > /dev/null 2>&1; then
        step "Rust: clippy" cargo clippy -q --offline --all-targets --manifest-path bindings/rust/Cargo.toml -- -D warnings
    else
        skip "Rust: clippy" "no clippy"
    fi
    step "Rust: documentation without a library" rust_docs
    test_oldest_rust
    mkdir -p "$work/page/src"
    block rust > "$work/page/src/main.rs"
    printf '[package]\nname = "page"\nversion = "1.0.0"\nedition = "2021"\n\n[dependencies]\nlinkcap = { path = "%s" }\n' \
        "$top/bindings/rust" > "$work/page/Cargo.toml"
    step "Rust: the page" cargo run -q --offline --manifest-path "$work/page/Cargo.toml"
    local packages=/usr/share/cargo/registry
    if [ -d $packages/netlink-packet-route-0.12.0 ]; then
        local debian=(--manifest-path bindings/rust/route_example/Cargo.toml
            --config 'source.crates-io.replace-with="debian"' --config "source.debian.directory=\"$packages\"")
        step "Rust: netlink-packet-route" cargo run -q --offline "${debian[@]}"
        step "Rust: netlink-packet-route, golden" cargo test -q --offline "${debian[@]}"
        step "Rust: the failure on the page" rust_fails_as_on_the_page "${debian[@]:2}"
    else
        skip "Rust: netlink-packet-route" "no package librust-netlink-packet-route-dev of 0.12"
    fi
}

# install_library PREFIX: installs the library for pkg-config
install_library() {
    local name
    mkdir -p "$1/lib/pkgconfig" "$1/include"
    cp -P "$lib"/liblinkcap.* "$1/lib"
    cp "$lib"/linkcap*.h "$1/include"
    for name in linkcap linkcap-static; do
        sed -e "s|@PREFIX@|$1|" -e "s|@VERSION@|1|" "bindings/c/$name.pc.in" > "$1/lib/pkgconfig/$name.pc"
    done
}

go_is_formatted() {
    local unformatted
    unformatted=$(gofmt -l bindings/go)
    [ -z "$unformatted" ] || { echo "gofmt would change $unformatted"; return 1; }
}

# Threads that C starts have the stack that ulimit sets.
go_with_a_small_stack() {
    env -C bindings/go go test -c -o "$work/go/deep" . && (ulimit -s 256 && exec "$work/go/deep" -test.run TestDeepCaptures)
}

# A build without cgo fails, and its only error names the requirements.
go_without_cgo() {
    ! env -C bindings/go CGO_ENABLED=0 go build ./... 2> "$work/errors" || return
    cat "$work/errors"
    [ "$(grep -c '^\./' "$work/errors")" -eq 1 ] && grep -q linkcap_needs_Linux_and_CGO_ENABLED_1_and_a_C_compiler "$work/errors"
}

# Compares requests of vishvananda/netlink with golden files. Those of LinkAdd need root and strace.
test_vishvananda() {
    local folder=bindings/go/vishvananda_test
    if [ ! -d /usr/share/gocode/src/github.com/vishvananda/netlink ]; then
        skip "Go: vishvananda/netlink" "no package golang-github-vishvananda-netlink-dev"
        return
    fi
    step "Go: vishvananda/netlink" env -C $folder go test -run 'TestVlan|TestVeth|TestPadding|TestReading' .
    sed '/"eth0.5"/s/1450/1400/' $folder/request_test.go > "$work/changed.go"
    printf '{"Replace": {"request_test.go": "%s"}}\n' "$work/changed.go" > "$work/overlay.json"
    step "Go: the failure on the page" fails_as_on_the_page go env -C $folder go test -overlay "$work/overlay.json" -run TestVlan .
    if [ "$(id -u)" -eq 0 ] && has strace && has python3 && unshare -n true 2> /dev/null; then
        step "Go: LinkAdd" env -C $folder go test -run TestLinkAdd .
    else
        skip "Go: LinkAdd" "no root, strace or network namespaces"
    fi
}

test_go() {
    has go || { skip Go "no go"; return; }
    has pkg-config || { skip Go "no pkg-config"; return; }
    echo "bindings: $(go version)"
    install_library "$work/go"
    export PKG_CONFIG_PATH=$work/go/lib/pkgconfig GOCACHE=$work/go/cache GOPROXY=off
    local test=(env -C bindings/go go test)
    step "Go: format" go_is_formatted
    step "Go: vet" env -C bindings/go go vet ./...
    step "Go: the calls" "${test[@]}" ./...
    step "Go: deep captures with a small stack" go_with_a_small_stack
    step "Go: the calls, shared" env LD_LIBRARY_PATH="$work/go/lib" "${test[@]}" -tags linkcap_shared ./...
    if echo 'int main(void) { return 0; }' | "$cc" -fsanitize=thread -x c -o "$work/none" - 2> /dev/null; then
        step "Go: races" "${test[@]}" -race -run 'Goroutines|Example|Reader|Golden' ./...
    else
        skip "Go: races" "$cc has no thread sanitizer"
    fi
    step "Go: fuzzing of one capture" "${test[@]}" -run '^$' -fuzz FuzzNormalize -fuzztime 5s .
    step "Go: fuzzing of two captures" "${test[@]}" -run '^$' -fuzz FuzzSame -fuzztime 5s .
    step "Go: without cgo" go_without_cgo
    test_vishvananda
}

for tool in "$cc" ld objcopy ar; do
    has "$tool" || { skip "all" "no $tool, which makes the library"; finish; }
done
lib=$work/lib
step "the library" bindings/c/build.sh "$lib"
[ "$failed" -eq 0 ] || finish

# start PART: runs a part of the tests in the background, in a separate folder, to which it writes the counts
start() {
    (
        work=$work/$1 passed=0 failed=0 skipped=0
        mkdir "$work"
        "test_$1"
        echo "$passed $failed $skipped" > "$work/counts"
    ) > "$work/$1.log" 2>&1 &
}

parts=(c python other_pythons python_types rust go)
for part in "${parts[@]}"; do start "$part"; done
wait
for part in "${parts[@]}"; do
    cat "$work/$part.log"
    [ -s "$work/$part/counts" ] || echo "0 1 0" > "$work/$part/counts"
    read -r part_passed part_failed part_skipped < "$work/$part/counts"
    passed=$((passed + part_passed)) failed=$((failed + part_failed)) skipped=$((skipped + part_skipped))
done
finish

#!/usr/bin/env bash
# Tries a release in a new root of Debian: installs its packages there, runs them, and removes them again.
#
#     tools/try-release.sh FOLDER [SUITE..]
#
# FOLDER was written by tools/release.py. SUITE is trixie if none is named. In each root these have to succeed: the sums; apt-get
# with all packages for Debian; README's first screen, a golden test that fails for a changed command; README's commands of
# captures; a golden test with linkgold, of a capture and of a command, and one with pytest, which have to fail for another
# capture; completion; the Python package; a program in C, with each library, also by musl; such golden tests in Go and Rust,
# from their archives; what PROVED.txt says is needed, by qemu as other processors and kernels; removal, which leaves no file;
# then the archive with its install.sh, the wheel with pytest, and the Python package's sources, each in a folder of its own.
#
# It needs root, mmdebstrap and a network, and ends with a line and status 0 where they are missing. ./check doesn't run it. A
# root takes some minutes. The last line is `N passed, M failed, K skipped`; what is skipped is a suite without a root.
set -uo pipefail
[ $# -ge 1 ] && [[ $1 != -* ]] || { echo "usage: tools/try-release.sh FOLDER [SUITE..]" >&2; exit 2; }
release=$(cd "$1" && pwd) || exit 2
shift
[ "$(id -u)" -eq 0 ] || { echo "try-release: skipped: needs root"; exit 0; }
command -v mmdebstrap > /dev/null || { echo "try-release: skipped: no mmdebstrap"; exit 0; }
work=$(mktemp -d)
trap 'rm -rf "$work"' EXIT
passed=0 failed=0 skipped=0

# step NAME COMMAND..: runs a command, counts it, and prints the end of its output if it fails
step() {
    local name=$1
    if "${@:2}" > "$work/log" 2>&1; then
        passed=$((passed + 1)) && echo "try-release: passed: $name"
    else
        failed=$((failed + 1)) && tail -n 20 "$work/log" && echo "try-release: FAILED: $name"
    fi
}

# inside COMMANDS: runs commands of the shell in the root, up to the first that fails. In a list with && only a failure of the
# last one ends them.
inside() {
    unshare --pid --fork --mount-proc="$root/proc" env -i PATH=/usr/sbin:/usr/bin:/sbin:/bin HOME=/root LC_ALL=C.UTF-8 \
        DEBIAN_FRONTEND=noninteractive chroot "$root" sh -euc "$1"
}

# The names of all files that packages may leave.
files() { (cd "$root" && find etc usr opt var/lib/python* -not -name '*.cache' 2> /dev/null | LC_ALL=C sort); }
same_files() { files | diff "$work/before" -; }

make_root() {
    local include=python3,python3-pip,python3-pytest,gcc,libc6-dev,pkgconf,golang-go,cargo,musl-tools
    mmdebstrap --quiet --variant=minbase --include="$include,strace,iproute2,zsh,fish,qemu-user" \
        --aptopt='Acquire::Check-Valid-Until "false"' "$1" "$root" || return
    mkdir "$root/release" && cp "$release"/* "$root/release"
}

sample=/usr/share/doc/linkcap/examples/samples
first="cd \$(mktemp -d)
    linkgold --update network.lines -- sh $sample/network.sh
    linkgold network.lines -- sh $sample/network.sh
    sed 's/ mtu 9000//; s/master br0/master br1/' $sample/network.sh > changed.sh
    status=0; linkgold network.lines -- sh changed.sh > diff || status=\$?; test \$status -eq 1
    grep -x -- '-  IFLA_MTU 9000' diff
    grep -x -- '+  IFLA_MASTER \"br1\"' diff"
captures="linkcap norm < $sample/lo-request.bin > /tmp/text
    cmp -l $sample/lo-request.bin /tmp/text > /tmp/changed || true
    printf '44 200   0\n48 377   0\n' | cmp - /tmp/changed
    test \"\$(linkcap same $sample/lo-request.bin /tmp/text)\" = same
    linkshow $sample/lo-request.bin | cmp - $sample/lo-request.lines"
golden="linkgold $sample/req-veth.lines $sample/req-veth.bin"
red="status=0; linkgold $sample/req-veth.lines $sample/lo-request.bin || status=\$?; test \$status -eq 1"
recorded="cd /tmp
    linkgold --update command.lines -- ip link add br7 type bridge
    linkgold command.lines -- ip link add br7 type bridge
    status=0
    linkgold command.lines -- ip link add br8 type bridge || status=\$?
    test \$status -eq 1"
completion="zsh -fc 'autoload -Uz compinit; compinit -uD; test \$_comps[linkgold] = _linkcap'
    test \"\$(fish -c 'complete -C \"linkshow --keep-g\"' | cut -f 1)\" = --keep-going"
python="python3 -c 'import sys, linkcap
capture = open(sys.argv[1] + \".bin\", \"rb\").read()
assert linkcap.lines(capture) == open(sys.argv[1] + \".lines\").read()'"
# Of these two tests the second has to fail.
pytest="rm -rf /tmp/tests && mkdir /tmp/tests && cp *.lines *.bin /tmp/tests && cd /tmp/tests &&
    printf 'def test_equal(linkcap_golden):
    linkcap_golden(open(\"req-veth.bin\", \"rb\").read(), \"req-veth.lines\", numbers=True)
def test_other(linkcap_golden):
    linkcap_golden(open(\"lo-request.bin\", \"rb\").read(), \"req-veth.lines\", numbers=True)\n' > test_golden.py
    export PYTHONDONTWRITEBYTECODE=1 && python3 -m pytest -q -p no:cacheprovider -k test_equal &&
    status=0 && { python3 -m pytest -q -p no:cacheprovider > failures || status=\$?; } && test \$status -eq 1 &&
    grep 'isn.t that of the golden file' failures && grep '1 failed, 1 passed' failures"
in_c="cd /tmp
    printf '#include <linkcap.h>\nint main(void) { return linkcap_version() != LINKCAP_VERSION; }\n' > version.c
    gcc -o shared version.c \$(pkg-config --cflags --libs linkcap)
    ./shared
    gcc -o static version.c \$(pkg-config --cflags --libs linkcap-static)
    ./static
    gcc -o marked version.c \$(pkg-config --cflags --libs linkcap-static) -Wl,-z,x86-64-v2
    ./marked
    cp /usr/include/linkcap.h .
    musl-gcc -static -I. -o musl version.c \$(pkg-config --variable=archive linkcap)
    ./musl
    ! ldd ./static | grep linkcap"
# Each of the next two runs a test that has to pass, and then one more, which has to fail.
in_go="mkdir /tmp/linkcap-go && tar -C /tmp/linkcap-go --strip-components=1 -xzf /release/linkcap-go-*.tar.gz
    cd /tmp/go && export GOPROXY=off GOFLAGS=-mod=mod && go test -run Equal . && ! go test . > failures && grep 'FAIL: TestOther' failures"
in_rust="mkdir /tmp/linkcap-rust && tar -C /tmp/linkcap-rust --strip-components=1 -xzf /release/linkcap-rust-*.tar.gz
    cd /tmp/rust && cargo test -q --offline equal && ! cargo test -q --offline > failures 2>&1 && grep 'other .*FAILED\|    other' failures"
# What PROVED.txt says is needed. A program refuses an older processor with a line, the loader does so for a marked library or
# program; Nehalem is the first processor with x86-64-v2. qemu reports the least kernel. The packages' dependencies have the C
# library's version.
needed="cd /tmp
    refuses() { ! qemu-x86_64 -cpu core2duo \"\$@\" < $sample/lo-request.bin > none 2> report && test ! -s none && cat report; }
    refuses /usr/bin/linkcap norm | grep x86-64-v2
    refuses /usr/bin/linkshow | grep x86-64-v2
    refuses ./shared | grep 'CPU ISA level is lower than required'
    refuses ./marked | grep 'CPU ISA level is lower than required'
    kernel=\$(sed -n 's/^needs .*linkshow: Linux \([0-9.]*\);.*/\1/p' /release/PROVED.txt)
    qemu-x86_64 -r \"\$kernel\" -cpu Nehalem /usr/bin/linkshow $sample/lo-request.bin | cmp - $sample/lo-request.lines
    qemu-x86_64 -r \"\$kernel\" -cpu Nehalem ./shared
    libc=\$(sed -n 's/^needs .*linkshow:.* glibc \([0-9.]*\).*/\1/p' /release/PROVED.txt)
    dpkg-query -W -f '\${Depends}' linkcap | grep -F \"libc6 (>= \$libc)\""
archive="tar -C /tmp -xzf /release/linkcap-[0-9]*-linux-x86_64.tar.gz
    cd /tmp/linkcap-[0-9]*
    grep '^bin/linkshow: Linux' README.txt
    ./install.sh /opt/linkcap
    export PATH=/opt/linkcap/bin:\$PATH PKG_CONFIG_PATH=/opt/linkcap/lib/pkgconfig
    linkcap norm < samples/req-veth.bin | cmp - samples/req-veth.bin
    linkgold samples/req-veth.lines samples/req-veth.bin
    gcc -o /tmp/static /tmp/version.c \$(pkg-config --cflags --libs linkcap-static)
    /tmp/static"

# Writes the tests in Go and in Rust, which compare two captures with the lines of the first one, to /tmp of the root.
write_tests() {
    mkdir -p "$root/tmp/go" "$root/tmp/rust/src"
    printf 'module golden\n\ngo 1.19\n\nrequire linkcap.invalid/linkcap v0.0.0\n\nreplace linkcap.invalid/linkcap => ../linkcap-go\n' \
        > "$root/tmp/go/go.mod"
    cat > "$root/tmp/go/golden_test.go" << END
package golden

import (
	"os"
	"testing"

	"linkcap.invalid/linkcap"
	"linkcap.invalid/linkcap/linkcaptest"
)

func golden(t *testing.T, name string) {
	capture, err := os.ReadFile("$sample/" + name)
	if err != nil {
		t.Fatal(err)
	}
	linkcaptest.GoldenWith(t, capture, "$sample/req-veth.lines", linkcap.Options{Numbers: linkcap.WithNumbers})
}

func TestEqual(t *testing.T) { golden(t, "req-veth.bin") }
func TestOther(t *testing.T) { golden(t, "lo-request.bin") }
END
    printf '[package]\nname = "golden"\nversion = "1.0.0"\nedition = "2021"\n\n[dependencies]\nlinkcap = { path = "../linkcap-rust" }\n' \
        > "$root/tmp/rust/Cargo.toml"
    cat > "$root/tmp/rust/src/lib.rs" << END
fn compare(name: &str) {
    let capture = std::fs::read(format!("$sample/{}", name)).unwrap();
    let lines = linkcap::lines(&capture).unwrap();
    assert_eq!(lines, std::fs::read_to_string("$sample/req-veth.lines").unwrap());
}

#[test]
fn equal() {
    compare("req-veth.bin");
}

#[test]
fn other() {
    compare("lo-request.bin");
}
END
}

try_suite() {
    root=$work/$1
    if ! make_root "$1" > "$work/log" 2>&1; then
        tail -n 3 "$work/log"
        skipped=$((skipped + 1))
        echo "try-release: skipped: no root of $1"
        return
    fi
    files > "$work/before"
    step "$1: sums" inside "cd /release && sha256sum -c SHA256SUMS"
    step "$1: apt-get install" inside "apt-get install -y --no-install-recommends /release/*.deb"
    step "$1: linkgold, as README begins" inside "$first"
    step "$1: linkcap and linkshow, as in README" inside "$captures"
    step "$1: linkgold" inside "$golden"
    step "$1: linkgold, another capture" inside "$red"
    step "$1: linkgold, a command" inside "$recorded"
    step "$1: completion" inside "$completion"
    step "$1: Python" inside "$python $sample/req-veth"
    step "$1: pytest" inside "cd $sample; $pytest"
    step "$1: C" inside "$in_c"
    write_tests
    step "$1: Go" inside "$in_go"
    step "$1: Rust" inside "$in_rust"
    step "$1: other processors and kernels" inside "$needed"
    step "$1: apt-get purge" inside 'apt-get purge -y $(for file in /release/*.deb; do dpkg-deb -f "$file" Package; done)'
    step "$1: no file is left" same_files
    step "$1: the archive" inside "$archive"
    step "$1: the wheel" inside "pip install --no-index --target /opt/wheel /release/*.whl && cd /tmp/linkcap-[0-9]*/samples &&
        PYTHONPATH=/opt/wheel $python req-veth"
    step "$1: the wheel, with pytest" inside "cd /tmp/linkcap-[0-9]*/samples; export PYTHONPATH=/opt/wheel; $pytest"
    step "$1: the Python package's sources" inside "LINKCAP_LIB_DIR=/opt/linkcap/lib pip install --no-index --target /opt/sources \
        /release/linkcap-python-*.tar.gz && cd /tmp/linkcap-[0-9]*/samples && PYTHONPATH=/opt/sources $python req-veth"
    rm -rf "$root"
}

for suite in "${@:-trixie}"; do try_suite "$suite"; done
echo "$passed passed, $failed failed, $skipped skipped"
[ "$failed" -eq 0 ]

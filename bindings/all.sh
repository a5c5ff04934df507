#!/bin/bash
# Builds libfanughespu.a and libgreetings_c.a and the bindings to C, Rust and Python, and runs their tests. Its last line is
# "N passed, M failed". The argument fanughespu or greetings_c, if there is one, names the one library that is built and tested.
# FANUGHESPU_LIB, if set, is a folder with the libraries; else `rt lib` proves and builds them.
set -u
cd "$(dirname "$0")" || exit 2
build=${FANUGHESPU_BUILD:-$(mktemp -d)}
mkdir -p "$build/certificates"
log=$build/log
: > "$log"

# A step that says nothing of its own.
step() {
    local name=$1
    shift
    if "$@" > "$build/step" 2>&1; then
        echo "ok $name" | tee -a "$log"
    else
        cat "$build/step"
        echo "FAILED $name" | tee -a "$log"
    fi
}

# Tests that write a line for each, "ok .." or "FAILED ..".
tests() {
    local name=$1
    shift
    "$@" > "$build/tests" 2> "$build/step" || { cat "$build/step"; echo "FAILED $name" >> "$build/tests"; }
    grep "^FAILED" "$build/tests"
    cat "$build/tests" >> "$log"
}

build_library() {
    local start=$SECONDS name=$1
    if [ -n "${FANUGHESPU_LIB:-}" ]; then
        cp "$FANUGHESPU_LIB/lib$name.a" "$build/"
        return
    fi
    rm -rf "../crates/$name/out"
    (cd "../crates/$name" && rt lib) > "$build/rt_lib" 2>&1 || { tail -20 "$build/rt_lib"; return 1; }
    cp "../crates/$name/out/lib$name.a" "$build/"
    echo "rt lib of $name took $((SECONDS - start)) s, beside the proofs that this machine had kept" >> "$build/times"
}

# The certificates of the machine, as DER.
make_certificates() {
    python3 - /etc/ssl/certs/ca-certificates.crt "$build/certificates" <<'PYTHON'
import pathlib, ssl, sys
parts = pathlib.Path(sys.argv[1]).read_text().split("-----BEGIN CERTIFICATE-----")[1:]
for number, part in enumerate(parts):
    der = ssl.PEM_cert_to_DER_cert("-----BEGIN CERTIFICATE-----" + part[: part.index("-----END")] + "-----END CERTIFICATE-----\n")
    pathlib.Path(sys.argv[2], f"{number:03}.der").write_bytes(der)
sys.exit(not parts)
PYTHON
}

c_warnings="-std=c11 -Wall -Wextra -Werror -pedantic"
build_c() {
    local name
    for name in example damaged rows certificates texts; do
        gcc $c_warnings -O1 -g -Ic "c/$name.c" c/heap.c "$build/libfanughespu.a" -pthread -o "$build/$name.c.out" || return 1
    done
    gcc $c_warnings -O1 -g -Ic c/no_memory.c c/no_heap.c "$build/libfanughespu.a" -o "$build/no_memory.c.out" || return 1
    echo '#include "fanughespu.h"' > "$build/header.cc"
    g++ -std=c++17 -Wall -Wextra -Werror -Ic -c "$build/header.cc" -o "$build/header.o"
}

build_module() {
    cp -r python "$build/"
    gcc -O2 -shared -fPIC -o "$build/python/fanughespu/libfanughespu.so" c/heap.c -Wl,--whole-archive "$build/libfanughespu.a" \
        -Wl,--no-whole-archive -Wl,-z,defs -Wl,-z,text -Wl,--version-script=version.map
}

rust_tests() {
    (cd rust && FANUGHESPU_LIB=$build CARGO_TARGET_DIR=$build/target cargo test --offline) |
        sed -n 's/^test \(.*\) \.\.\. ok$/ok Rust \1/p; s/^test \(.*\) \.\.\. FAILED$/FAILED Rust \1/p'
    return "${PIPESTATUS[0]}"
}

# A length that is not in its shortest form, and octets that end inside the outermost element.
damaged_certificates() {
    local departures=../examples/departures
    "$build/damaged.c.out" $departures/long-length-inside.der | grep "^rule 3 of fanughespu.h is broken at byte 14$" &&
        "$build/damaged.c.out" $departures/cut-off.der | grep "^no element begins at byte 0$"
}

fanughespu() {
    step "libfanughespu.a" build_library fanughespu
    step "certificates of the machine" make_certificates
    local certificates=("$build"/certificates/*.der) texts=(../examples/certificates/*.txt ../examples/ldap/*.txt)

    step "C" build_c
    tests "rows in C" "$build/rows.c.out" rows.txt
    tests "no memory in C" "$build/no_memory.c.out"
    step "example" "$build/example.c.out" "${certificates[0]}"
    step "damaged certificates" damaged_certificates
    tests "texts in C" "$build/texts.c.out" 1 "${texts[@]}"
    tests "certificates in C" "$build/certificates.c.out" 3 "${certificates[@]}"
    step "rows under valgrind" valgrind -q --error-exitcode=9 "$build/rows.c.out" rows.txt
    step "texts under valgrind" valgrind -q --error-exitcode=9 --leak-check=full "$build/texts.c.out" 97 "${texts[@]:0:1}" ../examples/ldap/add.txt
    step "certificates under valgrind" valgrind -q --error-exitcode=9 --leak-check=full "$build/certificates.c.out" 1 "${certificates[@]:0:2}"

    tests "Rust" rust_tests

    step "shared object" build_module
    tests "Python" env PYTHONPATH="$build/python" python3 "$build/python/test.py" "$PWD/rows.txt" "$PWD/../examples" "${certificates[@]}"
}

printed=../crates/greetings_c
build_greetings() {
    local name
    for name in rows example; do
        gcc $c_warnings -O1 -g -Ic -I$printed "greetings/$name.c" c/heap.c "$build/libgreetings_c.a" -pthread -o "$build/greetings_$name.c.out" || return 1
    done
    gcc $c_warnings -O1 -g -Ic -I$printed greetings/no_memory.c c/no_heap.c "$build/libgreetings_c.a" -o "$build/greetings_no_memory.c.out" || return 1
    echo '#include "greetings.h"' > "$build/greetings.cc"
    g++ -std=c++17 -Wall -Wextra -Werror -Ic -I$printed -c "$build/greetings.cc" -o "$build/greetings.o" || return 1
    rustc --edition 2024 -D warnings -A dead_code -L "$build" greetings/rows.rs -o "$build/greetings.rust.out" || return 1
    cp $printed/greetings.py greetings/test.py "$build/"
    gcc -O2 -shared -fPIC -o "$build/libgreetings_c.so" c/heap.c -Wl,--whole-archive "$build/libgreetings_c.a" \
        -Wl,--no-whole-archive -Wl,-z,defs -Wl,-z,text -Wl,--version-script=greetings/version.map
}

# A component with its DEFAULT, which DER leaves out: its element begins at octet 9.
greetings_example() {
    printf '\x30\x0a\x80\x05Hello\x81\x01\x01' > "$build/default.ber"
    "$build/greetings_example.c.out" "$build/default.ber" | grep "^octet 9: "
}

greetings_c() {
    step "libgreetings_c.a" build_library greetings_c
    step "greetings" build_greetings
    step "greetings example" greetings_example
    tests "greetings in C" "$build/greetings_rows.c.out" greetings/rows.txt
    tests "greetings without memory in C" "$build/greetings_no_memory.c.out"
    step "greetings under valgrind" valgrind -q --error-exitcode=9 --leak-check=full "$build/greetings_rows.c.out" greetings/rows.txt
    tests "greetings in Rust" "$build/greetings.rust.out"
    tests "greetings in Python" python3 "$build/test.py" greetings/rows.txt
}

case ${1:-all} in
    fanughespu | greetings_c) "$1" ;;
    all) fanughespu; greetings_c ;;
    *) echo "no such library: $1"; exit 2 ;;
esac
[ ! -f "$build/times" ] || cat "$build/times"

passed=$(grep -c "^ok" "$log")
failed=$(grep -c "^FAILED" "$log")
echo "$passed passed, $failed failed"
[ "$failed" -eq 0 ]

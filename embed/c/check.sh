#!/bin/sh
# Builds the examples and the tests against the proved libraries with the warnings on, runs them, and compares what the
# examples print. The headers must be taken by C99 and C++ too, one alone and both together.
# The libraries are made by `rt lib` in the folders crates/register_c and crates/printing_c, or lie in the folders
# REGISTER_LIB_DIR and PRINTING_LIB_DIR.
set -eu
cd "$(dirname "$0")"
register=${REGISTER_LIB_DIR:-../../crates/register_c/out}/libregister_c.a
printing=${PRINTING_LIB_DIR:-../../crates/printing_c/out}/libprinting_c.a
missing=0
needed() {
    [ ! -f "$1" ] || return 0
    echo "embed/c: the library is missing; run 'rt lib' in the folder crates/$2" >&2
    missing=1
}
needed "$register" register_c
needed "$printing" printing_c
[ "$missing" = 0 ] || exit 1
# printing.h says that its library needs no other.
if nm -u "$printing" | grep ' U '; then
    echo "embed/c: libprinting_c.a needs the names above from another library" >&2
    exit 1
fi
mkdir -p target
examples='example example_limits example_next example_printing'
tests='test test_free_slots test_learning test_limits test_next test_next_refusals test_printing'
warnings='-Wall -Wextra -Wpedantic -Wconversion -Wsign-conversion -Wshadow -Werror'
for program in $examples $tests; do
    # A test of one header has its library alone, so that it is seen that it needs no other.
    case $program in
    example_printing) set -- "$printing" "$register" ;;
    test_printing) set -- "$printing" ;;
    *) set -- "$register" ;;
    esac
    # shellcheck disable=SC2086
    ${CC:-gcc} -std=c11 -O2 $warnings -Wstrict-prototypes -o "target/$program" "$program.c" "$@"
    # shellcheck disable=SC2086
    ${CC:-gcc} -std=c99 $warnings -fsyntax-only "$program.c"
    # shellcheck disable=SC2086
    ${CXX:-g++} -std=c++11 $warnings -x c++ -fsyntax-only "$program.c"
done
for program in $tests; do
    header=register.h
    [ "$program" != test_printing ] || header=printing.h
    if ! "target/$program" >target/printed; then
        echo "embed/c: the library is not what $header says:" >&2
        cat target/printed >&2
        exit 1
    fi
done
for program in $examples; do
    expected=expected${program#example}
    if ! "target/$program" >target/printed || ! cmp -s "$expected" target/printed; then
        echo "embed/c: $program fails, or prints something else than embed/c/$expected:" >&2
        cat target/printed >&2
        exit 1
    fi
done
echo "embed/c: the headers' promises hold, and the examples print what is expected"

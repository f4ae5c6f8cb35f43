#!/usr/bin/env bash
# Builds the tests against the library's archive and runs them: what each came to, exit status 1 if one fails.
#
#   tests/run.sh [ARCHIVE] [--calls N] [--seed S]   differential test, the archive's read-only data, the examples in C and the picture that one draws
#   tests/run.sh [ARCHIVE] --benchmark              the benchmark's tables instead
#
# ARCHIVE: target/staticlib/libinterface.a unless given. Needs rustc, a C compiler and python3, no crates.
set -uo pipefail
cd "$(dirname "$0")/.."

archive=target/staticlib/libinterface.a
mode=tests
options=()
while [ $# -gt 0 ]; do
	case $1 in
		--benchmark) mode=benchmark ;;
		--calls | --seed)
			options+=("$1" "${2:-}")
			shift
			;;
		*) archive=$1 ;;
	esac
	shift
done
if [ ! -f "$archive" ]; then
	echo "tests: no archive $archive (make it with ./archive)" >&2
	exit 2
fi

work=$(mktemp -d)
trap 'rm -rf "$work"' EXIT
# The linker finds it by this name, whatever it is called.
cp "$archive" "$work/libnegvask.a" || exit 2
failed=0

build() {
	rustc --edition 2021 -O "tests/$1.rs" -L "$work" -l static=negvask -o "$work/$1"
}

if [ "$mode" = benchmark ]; then
	build benchmark && "$work/benchmark" && size -t "$work/libnegvask.a" | tail -1 |
		awk '{ printf "library: %d bytes of code and read-only data, %d bytes of data (target: code under 40960)\n", $1, $2 + $3 }'
	exit
fi

if build differential && "$work/differential" "${options[@]}" > "$work/differential.out"; then
	echo "differential test: passed"
	grep -E '^(differential|batch|bytes|service kinds|kinds|ports|reach|secrecy|secrecy of bytes):' "$work/differential.out" | sed 's/^/  /'
else
	grep -A3 -E '^(DIFFERENCE|not reached)' "$work/differential.out" 2>/dev/null
	echo "differential test: FAILED"
	failed=1
fi

# What firmware has to supply, as README.md and the header say.
asked=$(nm -u "$archive" | awk '$1 == "U" { print $2 }' | sort -u | xargs)
if [ "$asked" = "memcpy memset" ]; then
	echo "functions that the archive asks for: $asked"
else
	echo "functions that the archive asks for: '$asked', where they are to be memcpy and memset: FAILED"
	failed=1
fi

if ! python3 tests/read_only.py "$archive"; then
	echo "read-only data: FAILED"
	failed=1
fi

for example in host batch firmware handover; do
	if ${CC:-cc} -std=c99 -Wall -Wextra -pedantic -Werror -O2 -I include "examples/$example.c" "$work/libnegvask.a" -o "$work/$example" &&
		"$work/$example" > "$work/$example.out" && diff "examples/$example.expected" "$work/$example.out"; then
		echo "example $example: passed"
	else
		echo "example $example: FAILED"
		failed=1
	fi
done

# docs/handover.svg is what the command in docs/FITTING.md draws.
read -ra drawn <<< "$(sed -n 's,^    sessions/assemble sessions/handover.session | target/draw \(.*\) > docs/handover.svg$,\1,p' docs/FITTING.md)"
if [ ${#drawn[@]} -gt 0 ] &&
	${CC:-cc} -std=c99 -Wall -Wextra -pedantic -Werror -O2 -I include examples/draw.c "$work/libnegvask.a" -o "$work/draw" &&
	sessions/assemble sessions/handover.session | "$work/draw" "${drawn[@]}" > "$work/handover.svg" &&
	cmp docs/handover.svg "$work/handover.svg"; then
	echo "drawing docs/handover.svg: passed"
else
	echo "drawing docs/handover.svg: FAILED"
	failed=1
fi

# The header serves C++ too.
if ! command -v "${CXX:-c++}" > /dev/null; then
	echo "examples as C++: skipped, there is no ${CXX:-c++}"
elif "${CXX:-c++}" -x c++ -std=c++11 -Wall -Wextra -pedantic -Werror -fsyntax-only -I include examples/*.c; then
	echo "examples as C++: passed"
else
	echo "examples as C++: FAILED"
	failed=1
fi

# Every line of C that docs/FIRMWARE.md shows is a line of an example.
shown=$(sed -n '/^```c$/,/^```$/p' docs/FIRMWARE.md | grep -v '^```')
if [ -n "$shown" ] && ! grep -vxFf <(cat examples/*.c) <<< "$shown"; then
	echo "C of docs/FIRMWARE.md: passed"
else
	echo "C of docs/FIRMWARE.md: FAILED"
	failed=1
fi
exit $failed

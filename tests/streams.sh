#!/bin/sh
# Runs the program with each of its standard streams closed at the start, and compares its answers. The files that it
# opens then must not take the place of a stream: a closed input is a fault of the input, a closed output one of the
# output, and what would go to a closed standard error is dropped, the acknowledgements of a recording too.
#
# Usage: tests/streams.sh [PROGRAM]

fdr=${1:-bin/fdr}
examples=$(dirname "$0")/../examples
room=$(mktemp -d) || exit 1
trap 'rm -rf "$room"' EXIT
failed=0

# Compares the status that the last command ended with.
expect() {
    if [ "$2" -ne "$1" ]; then
        echo "closed streams: $3 ended with $2 and not $1" >&2
        failed=1
    fi
}

same() {
    if ! cmp -s "$1" "$2"; then
        echo "closed streams: $3 made another file" >&2
        failed=1
    fi
}

make_image() { "$fdr" format "$examples/t1.csv" "$1" --slots 4 --payload 64; }

"$fdr" listbits "$examples/t1.csv" <&- 2>/dev/null
expect 8 $? "listbits without an input"
"$fdr" stream "$examples/t1.csv" <&- >/dev/null 2>&1
expect 8 $? "stream without an input"
"$fdr" listbits "$examples/t1.csv" <"$examples/cases/listbits_a_frame" >&- 2>/dev/null
expect 9 $? "listbits without an output"
for command in encode decode; do
    "$fdr" $command <&- 2>/dev/null
    expect 8 $? "$command without an input"
    "$fdr" $command <"$examples/cases/${command}_a_frame" >&- 2>/dev/null
    expect 9 $? "$command without an output"
done
"$fdr" check "$examples/t1.csv" >&- 2>/dev/null
expect 9 $? "check without an output"
"$fdr" recover "$examples/ring.img" >&- 2>/dev/null
expect 9 $? "recover without an output"
"$fdr" list "$examples/t1.csv" "$examples/recorded.img" >&- 2>/dev/null
expect 9 $? "list without an output"

make_image "$room/open.img"
expect 0 $? "format"
make_image "$room/no_error.img" 2>&-
expect 0 $? "format without a standard error"
same "$room/open.img" "$room/no_error.img" "format without a standard error"
make_image "$room/no_error.img" 2>&-
expect 5 $? "a second format without a standard error"
same "$room/open.img" "$room/no_error.img" "a second format without a standard error"
make_image "$room/none.img" <&- >&- 2>&-
expect 0 $? "format without any stream"
same "$room/open.img" "$room/none.img" "format without any stream"
"$fdr" recover "$room/none.img" <&- >&- 2>&-
expect 0 $? "recover of an empty image without any stream"
same "$room/open.img" "$room/none.img" "recover without any stream"

make_large() { "$fdr" format "$examples/t1.csv" "$1" --slots 32 --payload 64; }

make_large "$room/told.img"
make_large "$room/untold.img"
head -c 64 "$room/told.img" >"$room/header"
"$fdr" record "$examples/t1.csv" "$room/told.img" <"$examples/cases/stream_a_trace" 2>"$room/acks"
expect 0 $? "record"
"$fdr" record "$examples/t1.csv" "$room/untold.img" <"$examples/cases/stream_a_trace" 2>&-
expect 0 $? "record without a standard error"
head -c 64 "$room/untold.img" >"$room/header_after"
same "$room/header" "$room/header_after" "the header, record without a standard error"
same "$room/told.img" "$room/untold.img" "record without a standard error"
"$fdr" recover "$room/untold.img" >"$room/recovered"
same "$examples/cases/stream_a_trace.stdout" "$room/recovered" "recover of what was recorded without a standard error"
"$fdr" record "$examples/t1.csv" "$room/told.img" <&- 2>/dev/null
expect 8 $? "record without an input"
same "$room/told.img" "$room/untold.img" "record without an input"

[ "$failed" -eq 0 ] && echo "closed streams: as they should be"
exit "$failed"

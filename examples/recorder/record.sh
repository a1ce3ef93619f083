#!/bin/bash
# Records live buses, one recording after another, until SIGTERM or SIGINT. docs/ACQUISITION.md has its use.
#
#     record.sh [--once] TABLE IMAGE [IMAGE] -- SOURCE [WORDS...]
#
# SOURCE makes the trace, as the program of source.c does; the word {} among its words becomes the named pipe that it writes to.
# One recording ends and the next begins where the recorder ends by 0, 3, 8 or 10, or is killed. With --once it ends after the
# first one. What is for good ends this script, with the recorder's status: what the operator has to mend.
#
# From the environment: FDR and FDRPAIR, the programs; ACKS, the file for the recorder's lines with their times; LOCK_WAIT, the
# seconds that a lock of an image is waited for; PAUSE, those before the start after a fault; ALARM, a command that gets a text.
set -u
export TZ=UTC0
fdr=${FDR:-fdr} fdrpair=${FDRPAIR:-fdrpair} acks=${ACKS:-acks.log} lock_wait=${LOCK_WAIT:-30} pause=${PAUSE:-1}
once='' stopping='' source_pid='' recorder_pid='' answer='' quick=0 no_memory=0
declare -A means=([1]="these words are none of the program's" [2]="mend the table; fdr check names its fault"
    [4]="see that the disk is mounted and the image is the right one, or make an image by fdr format"
    [5]="this image has bytes" [6]="this image is for another table" [7]="make a new image" [12]="free some memory"
    [13]="give fdr upgrade" [15]="both images have to be made alike" [16]="docs/TWO_DISKS.md says what to do where each went on alone"
    [18]="docs/TWO_DISKS.md says what to do after a lead disk fault" [19]="copy the other image over this one, once it was listed")

usage() {
    echo "usage: record.sh [--once] TABLE IMAGE [IMAGE] -- SOURCE [WORDS...]" >&2
    exit 1
}

say() { printf '%(%FT%TZ)T record.sh: %s\n' -1 "$*" >&2; }

alarm() {
    say "ALARM: $*"
    [ -z "${ALARM:-}" ] || $ALARM "$*" </dev/null 3>&- & # nothing waits for it
}

[ "${1:-}" != --once ] || { once=1 && shift; }
[ $# -ge 4 ] || usage
table=$1 && shift
images=()
while [ $# -gt 0 ] && [ "$1" != -- ]; do images+=("$1") && shift; done
if [ $# -lt 2 ] || [ ${#images[@]} -lt 1 ] || [ ${#images[@]} -gt 2 ]; then usage; fi
shift

run=$(mktemp -d) || exit 1
trap 'rm -rf "$run"' EXIT
trap 'stopping=1; [ -z "$source_pid" ] || kill -TERM "$source_pid" 2>/dev/null; exec 3>&-' TERM INT
source_words=("${@//\{\}/$run/trace}")

# The images that are there. One that went on alone has a mark beside it until both were recorded in together again: where both
# have one, no start may bring one up to the other.
choose() {
    local image
    here=()
    for image in "${images[@]}"; do [ ! -s "$image" ] || here+=("$image"); done
    if [ ${#images[@]} -eq 2 ] && [ ${#here[@]} -eq 1 ]; then
        alarm "only ${here[0]} is there: it goes on alone"
        : >"${here[0]}.alone"
    elif [ ${#here[@]} -eq 2 ] && [ -e "${here[0]}.alone" ] && [ -e "${here[1]}.alone" ]; then
        alarm "stopped for good: each of the two images went on alone. ${means[16]}; then remove both files .alone"
        exit 16
    fi
    [ ${#here[@]} -gt 0 ] || here=("${images[@]}") # the recorder says what is wrong
}

# Waits until nobody holds an image, and has the system let go of its pages: after a failure they aren't what the disk has.
make_ready() {
    local image
    for image in "${here[@]}"; do
        [ -f "$image" ] || continue
        flock -w "$lock_wait" "$image" true 3>&- || alarm "$image is held by another program"
        dd of="$image" oflag=nocache conv=notrunc,nocreat,fdatasync count=0 status=none </dev/null 3>&- || alarm "$image can't be synced"
    done
}

# Writes the recorder's lines with their times, and marks what the script waits for.
take_lines() {
    local line said='' is_pair=''
    [ ${#here[@]} -lt 2 ] || is_pair=1
    while IFS= read -r line; do
        printf '%(%FT%TZ)T %s\n' -1 "$line" >>"$acks"
        case $line in
        "ack "*)
            [ -e "$run/begun" ] || [ -z "$is_pair" ] || rm -f "${here[0]}.alone" "${here[1]}.alone"
            : >"$run/begun" ;;
        "fault first") alarm "${here[0]} failed: the other image goes on alone" && : >"${here[1]}.alone" && is_pair='' ;;
        "fault second") alarm "${here[1]} failed: the other image goes on alone" && : >"${here[0]}.alone" && is_pair='' ;;
        *) said=${said:+$said; }$line && echo "$said" >"$run/answer" ;;
        esac
    done
}

# Each recording has a pipe of its own. Until the source has opened it, and until the recorder has read what the source wrote,
# the descriptor 3 of this script keeps it open.
start_recorder() {
    rm -f "$run/begun" "$run/answer" "$run/said"
    mkfifo "$run/next" "$run/said" || exit 1
    exec 3<>"$run/next"
    take_lines <"$run/said" 3>&- &
    lines_pid=$!
    if [ ${#here[@]} -eq 2 ]; then
        "$fdrpair" record "$table" "${here[@]}" <"$run/next" 2>"$run/said" 3>&- &
    else
        "$fdr" record "$table" "${here[0]}" <"$run/next" 2>"$run/said" 3>&- &
    fi
    recorder_pid=$!
    until [ -e "$run/begun" ] || ! kill -0 "$recorder_pid" 2>/dev/null; do sleep 0.02; done
    mv "$run/next" "$run/trace"
}

start_source() {
    if [ -n "$source_pid" ] && ! kill -0 "$source_pid" 2>/dev/null; then end_source; fi
    [ -z "$source_pid" ] && [ -z "$stopping" ] && [ -e "$run/begun" ] || return 0
    "${source_words[@]}" <&0 3>&- & # by itself a shell gives /dev/null to what runs beside it
    source_pid=$! source_began=$SECONDS
    [ -z "$stopping" ] || kill -TERM "$source_pid"
}

end_source() {
    wait "$source_pid" 2>/dev/null
    local status=$?
    source_pid=''
    say "the source ended with $status"
    if [ "$status" -lt 128 ] && [ $((SECONDS - source_began)) -lt 2 ]; then quick=$((quick + 1)); else quick=0; fi
}

# Waits for the recorder. Where the source ends, so does the trace.
wait_for_recorder() {
    while kill -0 "$recorder_pid" 2>/dev/null; do
        [ -n "$source_pid" ] || exec 3>&-
        wait -n "$recorder_pid" ${source_pid:+"$source_pid"} 2>/dev/null
        if [ -n "$source_pid" ] && ! kill -0 "$source_pid" 2>/dev/null; then end_source; fi
    done
    wait "$recorder_pid" 2>/dev/null
    status=$?
    exec 3>&-
    wait "$lines_pid" 2>/dev/null
    answer=$(cat "$run/answer" 2>/dev/null)
}

while [ -z "$stopping" ]; do
    choose
    make_ready
    [ -z "$stopping" ] || break
    start_recorder
    start_source
    wait_for_recorder
    [ "$status" -eq 12 ] && no_memory=$((no_memory + 1)) || no_memory=0
    case $status in
    0) ;;
    3 | 8 | 10 | 12 | 129 | 13[0-9] | 14[0-9] | 15[0-9]) say "the recorder ended with $status: ${answer:-no answer}" ;;
    *) no_memory=3 ;;
    esac
    [ "$status" -ne 10 ] || alarm "${answer}"
    if [ "$no_memory" -ge 3 ]; then
        [ -z "$source_pid" ] || kill -TERM "$source_pid" 2>/dev/null
        alarm "stopped for good, status $status: ${answer:-no answer}${means[$status]:+; ${means[$status]}}"
        exit "$status"
    fi
    if [ "$quick" -ge 3 ]; then
        alarm "stopped for good: the source ended three times as soon as it was started"
        exit 1
    fi
    [ -z "$once" ] || stopping=1
    [ -n "$stopping" ] || { [ "$status" -eq 0 ] && [ -n "$source_pid" ]; } || sleep "$pause" 3>&-
done
[ -z "$source_pid" ] || { kill -TERM "$source_pid" 2>/dev/null; wait "$source_pid" 2>/dev/null; }
exit "$([ "${status:-0}" -eq 3 ] && echo 0 || echo "${status:-0}")"

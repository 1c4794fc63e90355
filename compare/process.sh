#!/usr/bin/env bash
# compare/process.sh [PROGRAM]: runs the program as a process: its exit status, and what it writes to which stream, also where a
# stream is closed, full or left, and of words that are no text. The usage line of the script `timetable` and the synopsis of the
# manual page must be the program's own. Exits with 1 if one differs.
set -euo pipefail
top=$(cd "$(dirname "$0")/.." && pwd)
program=${1:-$top/built/timetable}
work=$(mktemp -d)
trap 'rm -rf "$work"' EXIT
different=0
usage=$(sed -n "s/^usage='\(.*\)'$/\1/p" "$top/timetable")

# expect STATUS OUTPUT ERROR INPUT WORD..: both streams byte for byte, a line of each without its end.
expect() {
    local status=0 wanted=$1 output=$2 error=$3 input=$4
    shift 4
    printf '%s' "$input" | "$program" "$@" >"$work/out" 2>"$work/err" || status=$?
    [ -z "$output" ] && : >"$work/out.wanted" || printf '%s\n' "$output" >"$work/out.wanted"
    [ -z "$error" ] && : >"$work/err.wanted" || printf '%s\n' "$error" >"$work/err.wanted"
    if [ "$status" = "$wanted" ] && cmp -s "$work/out" "$work/out.wanted" && cmp -s "$work/err" "$work/err.wanted"; then
        echo "same: $wanted ${*:-(no words)}"
    else
        echo "different: status $status, not $wanted: ${*:-(no words)}"
        different=1
    fi
}

expect 0 'minute 0 lon 0.000000 lat 0.000000 angle 0.000000 above' '' '' sun 0 0 0 0
expect 2 '' "$usage" ''
expect 2 '' "$usage" '' --help
expect 2 '' "$usage" '' tabel
expect 2 '' "$usage" '' sun 0 0 0
expect 2 '' "$usage" '' plain now
expect 2 '' "$usage" '' table --workers 0
expect 2 '' "$usage" '' table --workers=17
expect 3 '' 'order refused 5 range from' '{"from":"2025-02-30"}' plain
expect 3 '' 'order refused 1 json 1 at 0' '' order
expect 3 '' 'order refused 1 json 1 at 0' '' table --workers 2
expect 3 '' 'order refused 1 json 1 at 0' '' ical
expect 2 '' "$usage" '' agenda now
expect 8 '' 'ical refused line 1 fault 2' '' agenda
expect 8 '' 'ical refused line 1 fault 1' 'HELLO' agenda
expect 8 '' 'ical refused long' "$(head -c 16777217 /dev/zero | tr '\0' x)" agenda
expect 0 'end events 0' '' $'BEGIN:VCALENDAR\r\nEND:VCALENDAR\r\n' agenda

# ends STATUS ERROR WHAT: the shell lines on standard input, with $program and the file $order, end within a minute with the
# status, and the error stream has this line alone.
export program order=$work/order
echo '{"from":"2000-01-01","days":1,"method":"mwl","asr":"standard","zone":0,"district":{"type":"Polygon","coordinates":[[[0.1,0],[0.1,0],[0.1,0],[0.1,0]]]}}' >"$order"
ends() {
    local status=0 wanted=$1 error=$2 what=$3
    timeout 60 bash -s >"$work/out" 2>"$work/err" || status=$?
    [ -z "$error" ] && : >"$work/err.wanted" || printf '%s\n' "$error" >"$work/err.wanted"
    if [ "$status" = "$wanted" ] && cmp -s "$work/err" "$work/err.wanted"; then
        echo "same: $wanted $what"
    else
        echo "different: status $status, not $wanted: $what: $(head -c 300 "$work/err")"
        different=1
    fi
}

for words in 'sun 0 0 0 0' order plain 'table --workers 2' cover ical demo; do
    ends 5 'write fault' "$words, standard output closed" <<<"\"\$program\" $words <\"\$order\" >&-"
    ends 5 'write fault' "$words, standard output full" <<<"\"\$program\" $words <\"\$order\" >/dev/full"
    ends 5 'write fault' "$words, a pipe whose reader went away" <<<"(sleep 0.5; exec \"\$program\" $words <\"\$order\") | true; exit \${PIPESTATUS[0]}"
done
for words in order plain 'table --workers 2' cover ical check agenda; do
    ends 4 'read fault' "$words, standard input closed" <<<"\"\$program\" $words <&-"
    ends 4 'read fault' "$words, standard input a folder" <<<"\"\$program\" $words <\"\${order%/*}\""
done
ends 2 '' 'tabel, error stream closed' <<<'"$program" tabel 2>&-'
ends 2 '' 'tabel, error stream full' <<<'"$program" tabel 2>/dev/full'
ends 4 '' 'plain, all streams closed' <<<'"$program" plain <&- >&- 2>&-'
ends 2 "$usage" 'a word that is no UTF-8' <<<'"$program" $'"'\\xff\\xfe'"
ends 2 "$usage" 'plain and a word that is no UTF-8' <<<'"$program" plain $'"'\\xc3'"' <"$order"'
ends 2 "$usage" '10,000 words' <<<'"$program" $(seq 10000)'
ends 2 "$usage" 'plain and 10,000 words' <<<'"$program" plain $(seq 10000) <"$order"'
ends 2 "$usage" 'table and 10,000 words' <<<'"$program" table $(yes -- "--workers 1" | head -n 5000) <"$order"'
ends 2 "$usage" 'a word of 100,000 bytes' <<<'"$program" sun $(head -c 100000 /dev/zero | tr "\0" 1) 0 0 0'

# What the manual page's synopsis has is in the usage line, command by command.
commands=$(sed -n '/^\.Sh SYNOPSIS/,/^\.Sh DESC/p' "$top/docs/timetable.1" | sed -n 's/^\.Cm //p')
for command in $commands; do
    case " $usage " in
    *[\ \|]"$command"[\ \|]*) echo "same: the manual page's $command" ;;
    *)
        echo "different: the usage line has no $command"
        different=1
        ;;
    esac
done
if command -v mandoc >/dev/null; then
    if mandoc -Tlint "$top/docs/timetable.1"; then echo "same: the manual page's form"; else different=1; fi
fi
exit "$different"

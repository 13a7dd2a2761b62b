#!/usr/bin/env bash
# Whether the manual page and the program agree: each command, option, range and default of the page is what the program
# takes, each option that the program knows is on the page, each report line too, and the examples of the page run.
#   scripts/checks/check_manual.sh [PROGRAM]      bin/tnc, if no other is named
set -euo pipefail
cd "$(dirname "$0")/../.."
tnc=$(realpath "${1:-bin/tnc}")
page=$PWD/man/tnc.1
room=$(mktemp -d)
trap 'rm -rf "$room"' EXIT
faults=0

# Says what does not agree.
fault() {
    faults=$((faults + 1))
    echo "manual page: $*"
}

# The words that a command needs beside one option of its.
needed_beside() {
    case "$1 $2" in
        "loop --seed") echo "--frames 0" ;;
        "loop --frames") echo "--seed 0" ;;
        loop*) echo "--seed 0 --frames 0" ;;
        "bench --seed") echo "--octets 0 --full" ;;
        "bench --octets") echo "--seed 7 --full" ;;
        "bench --full") echo "--seed 7 --octets 0" ;;
        bench*) echo "--seed 7 --octets 0 --full" ;;
        "serve --kiss") echo "--agw 18101" ;;
        "serve --agw") echo "--kiss 18100" ;;
        "serve --ptt-tail" | "serve --ptt-data") echo "--kiss 18100 --agw 18101 --ptt 18103" ;;
        serve*) echo "--kiss 18100 --agw 18101" ;;
        "call --agw") echo "--from N7LEM --to NJ7P --polls 1" ;;
        "call --from") echo "--agw 18102 --to NJ7P --polls 1" ;;
        "call --to") echo "--agw 18102 --from N7LEM --polls 1" ;;
        "call --polls") echo "--agw 18102 --from N7LEM --to NJ7P" ;;
        call*) echo "--agw 18102 --from N7LEM --to NJ7P --polls 1" ;;
    esac
}

# WORDS..: the program refuses these words, or takes them, with nothing to read (which is no WAV file: status 2). Not
# everybody may open every port (status 10), and no station listens for a call (status 11). Where bench loses or gives most it may find no quiet channel, be spent, or run
# for minutes (statuses 7, 8, and 124 of timeout).
is_refused() {
    local status=0
    timeout 5 "$tnc" "$@" </dev/null >/dev/null 2>&1 || status=$?
    [ "$status" = 1 ]
}
is_taken() {
    local status=0 most=60
    if [ "$1" = bench ]; then most=5; fi
    timeout "$most" "$tnc" "$@" </dev/null >/dev/null 2>&1 || status=$?
    case "$1 $status" in
        *" 0" | "serve 10" | "call 11" | "bench 7" | "bench 8" | "bench 124") ;;
        *" 2") [[ " $* " = *" --wav "* ]] ;;
        *) return 1 ;;
    esac
}

# WORDS..: what the program writes, however it ends: no station listens for a call.
written_by() {
    "$tnc" "$@" 2>/dev/null || [ "$1" = call ]
}

# The number after a number of any length, and the one before, which is no number before 0.
one_more() {
    local digits=$1 zeros=
    while [[ $digits == *9 ]]; do
        digits=${digits%9} zeros=0$zeros
    done
    [ -n "$digits" ] || digits=0
    echo "${digits%?}$((${digits: -1} + 1))$zeros"
}
one_less() {
    echo $(($1 - 1))
}

# COMMAND OPTION TAKEN..: the numbers that an option takes.
takes() {
    local beside number
    beside=$(needed_beside "$1" "$2")
    for number in "${@:3}"; do
        is_taken "$1" $beside "$2" "$number" || fault "$1 $2 $number is refused"
        is_taken "$1" $beside "$2=00$number" || fault "$1 $2=00$number is refused"
    done
}
# COMMAND OPTION TAKEN..: the words that an option takes, and not in capitals with more after them.
takes_words() {
    local beside word
    beside=$(needed_beside "$1" "$2")
    for word in "${@:3}"; do
        is_taken "$1" $beside "$2" "$word" || fault "$1 $2 $word is refused"
        is_refused "$1" $beside "$2" "$word!" || fault "$1 $2 $word! is taken"
    done
    is_refused "$1" $beside "$2" || fault "$1 $2 is taken without its word"
}
does_not_take() {
    local beside number
    beside=$(needed_beside "$1" "$2")
    for number in "${@:3}"; do
        is_refused "$1" $beside "$2" "$number" || fault "$1 $2 $number is taken"
    done
}

# The page as lines `COMMAND OPTION TEXT`, TEXT being what stands below the option; an option with a number is followed
# by n.
entries=$(awk '
    function flush() { if (option ~ /^--/) print command "|" option "|" text; option = ""; text = "" }
    /^\.(SH|SS|TP)/ { flush() }
    /^\.SH / { inside = $2 == "COMMANDS" }
    /^\.SS / { command = $2 }
    /^\.TP/ && inside { getline; gsub(/\\-/, "-"); gsub(/"/, ""); option = $2 ($3 == "" ? "" : " " $3); next }
    inside && option != "" && !/^\./ { text = text " " $0 }
' "$page")
# The commands of the page, and those of the program.
commands=$(awk '/^\.SH /{ inside = $2 == "COMMANDS" } /^\.SS / && inside { print $2 }' "$page")
known=$(sed -n 's/.*parsed(alloc, "\([a-z]*\)".*/\1/p' crates/tnc_words/src/*_words.rt)
[ "$(sort <<<"$commands")" = "$(sort <<<"$known")" ] || fault "its commands are" $commands "and the program's" $known

# Each option of the program is on the page.
options=$(grep -o 'Entry::[A-Z][a-z]*("[a-z0-9-]*")' crates/tnc_words/src/options.rt | sed 's/.*"\(.*\)".*/--\1/' | sort -u)
on_page=$(cut -d '|' -f 2 <<<"$entries" | cut -d ' ' -f 1 | sort -u)
[ "$options" = "$on_page" ] || fault "its options are" $on_page "and the program's" $options

# Each command takes the options that the page gives it, within their ranges, and no other.
for command in $commands; do
    is_taken "$command" $(needed_beside "$command" "") || fault "$command is refused"
    for option in $options; do
        entry=$(grep "^$command|$option[ |]" <<<"$entries" || true)
        text=${entry##*|}
        beside=$(needed_beside "$command" "$option")
        if [ -z "$entry" ]; then
            is_refused "$command" $beside "$option" || fault "$command $option is taken, and not on the page"
            is_refused "$command" $beside "$option" 8 || fault "$command $option 8 is taken, and not on the page"
            continue
        elif [[ $entry == *"|$option name|"* && $text =~ ([a-z]+)\ or\ ([a-z]+)\;\ ([a-z]+)\ if ]]; then
            takes_words "$command" "$option" "${BASH_REMATCH[1]}" "${BASH_REMATCH[2]}"
            [ "${BASH_REMATCH[3]}" = "${BASH_REMATCH[1]}" ] || fault "$command $option has another default"
            continue
        elif [[ $entry == *"|$option name|"* && $text =~ ([a-z]+)\ or\ ([a-z]+)[^.]*\;\ if\ it\ is\ not\ given,\  ]]; then
            takes_words "$command" "$option" "${BASH_REMATCH[1]}" "${BASH_REMATCH[2]}"
            is_taken "$command" $beside || fault "$command needs $option"
            continue
        elif [[ $entry == *"|$option call|"* ]]; then
            takes_words "$command" "$option" N7LEM N7LEM-15
            does_not_take "$command" "$option" N7LEM-16 TOOLONGX ""
            [[ $text != *"It has to be given."* ]] || is_refused "$command" $beside || fault "$command does not need $option"
            continue
        elif [[ $entry == *"|$option port|"* && $text =~ number\ from\ ([0-9]+)\ to\ ([0-9]+),\ or\ the\ word\ ([a-z]+), ]]; then
            takes_words "$command" "$option" "${BASH_REMATCH[3]}"
            takes "$command" "$option" "${BASH_REMATCH[1]}" "${BASH_REMATCH[2]}"
            does_not_take "$command" "$option" "$(one_less "${BASH_REMATCH[1]}")" "$(one_more "${BASH_REMATCH[2]}")" +8 8x ""
            continue
        elif [[ $entry == *"|$option A.B.C.D|"* ]]; then
            takes_words "$command" "$option" 127.0.0.1 0.0.0.0
            does_not_take "$command" "$option" 127.0.0 127.0.0.256 127.0.0.01 localhost ::1 ""
            continue
        elif [[ $entry == *"|$option calls|"* ]]; then
            takes_words "$command" "$option" N7LEM N7LEM-15,W1AW
            does_not_take "$command" "$option" N7LEM, ,N7LEM N7LEM,,W1AW A,B,C,D,E,F,G,H,I ""
            continue
        elif [[ $entry == *"|$option how|"* && $text =~ The\ word\ ([a-z]+),\ or\ a\ number\ from\ ([0-9]+)\ to\ ([0-9]+)\; ]]; then
            takes_words "$command" "$option" "${BASH_REMATCH[1]}"
            takes "$command" "$option" "${BASH_REMATCH[2]}" "${BASH_REMATCH[3]}"
            does_not_take "$command" "$option" "$(one_less "${BASH_REMATCH[2]}")" "$(one_more "${BASH_REMATCH[3]}")" ""
            continue
        elif [[ $entry == *"|$option n|"* && $text =~ ([0-9]+),\ ([0-9]+)\ or\ ([0-9]+)\ check\ octets ]]; then
            takes "$command" "$option" "${BASH_REMATCH[@]:1}"
            for number in "${BASH_REMATCH[@]:1}"; do
                does_not_take "$command" "$option" "$(one_less "$number")" "$(one_more "$number")"
            done
            is_refused "$command" $beside "$option" || fault "$command $option is taken without its number"
            continue
        elif [[ $entry != *"|$option n|"* ]]; then
            is_taken "$command" $beside "$option" || fault "$command $option is refused"
            is_refused "$command" $beside "$option" "$option" || fault "$command $option is taken twice"
            is_refused "$command" $beside "$option=1" || fault "$command $option=1 is taken"
            continue
        elif [[ $text =~ From\ ([0-9]+)\ to\ ([0-9]+) ]]; then
            takes "$command" "$option" "${BASH_REMATCH[1]}" "${BASH_REMATCH[2]}"
            does_not_take "$command" "$option" "$(one_less "${BASH_REMATCH[1]}")" "$(one_more "${BASH_REMATCH[2]}")"
        elif [[ $text =~ ([0-9]+)\ or\ ([0-9]+)\; ]]; then
            takes "$command" "$option" "${BASH_REMATCH[1]}" "${BASH_REMATCH[2]}"
            for number in "${BASH_REMATCH[1]}" "${BASH_REMATCH[2]}"; do
                does_not_take "$command" "$option" "$(one_less "$number")" "$(one_more "$number")"
            done
        else
            fault "$command $option has no range"
        fi
        is_refused "$command" $beside "$option" || fault "$command $option is taken without its number"
        does_not_take "$command" "$option" +8 8x ""
        # the default, or that there is none
        if [[ $text =~ \;\ ([0-9]+)\ if\ it\ is\ not\ given ]]; then
            given=samples/minimodem-clean.frames
            written_by "$command" $beside <$given >"$room/without"
            written_by "$command" $beside "$option" "${BASH_REMATCH[1]}" <$given | cmp -s - "$room/without" \
                || fault "$command $option has another default"
        elif [[ $text == *"; if it is not given, "* ]]; then
            is_taken "$command" $beside || fault "$command needs $option"
        elif [[ $text == *"It has to be given."* ]]; then
            is_refused "$command" $beside || fault "$command does not need $option"
        else
            fault "$command $option has neither a default nor has to be given"
        fi
    done
done

# What help says: the synopsis of the page, the options of each command, and their ranges and defaults.
synopsis=$(awk '
    /^\.SH / { inside = $2 == "SYNOPSIS"; next }
    !inside { next }
    /^\.br/ { print line; line = ""; open = ""; next }
    {
        gsub(/\\-/, "-"); macro = $1; $1 = ""; sub(/^ /, "")
        if (macro == ".RB" || macro == ".RI" || macro == ".IR") { gsub(/\[ /, "["); gsub(/ \]/, "]") }
        line = line (line == "" ? "" : " ") $0
    }
    END { if (line != "") print line }
' <(sed '/^\.SH DESCRIPTION/,$d' "$page"))
# Standard input: lines, of which those that begin with more spaces than two go on.
joined() {
    sed 's/^  \([^ ]\)/\1/' | awk '/^   *[^ ]/ { sub(/^ */, ""); line = line " " $0; next } { if (line != "") print line; line = $0 }
        END { if (line != "") print line }'
}
help=$("$tnc" help)
[ "$(joined <<<"$help" | grep '^tnc ')" = "$synopsis" ] || fault "help has another synopsis"
for words in --help -h; do
    [ "$("$tnc" $words)" = "$help" ] || fault "$words is not help"
done
[ "$("$tnc" version)" = "$("$tnc" --version)" ] || fault "--version is not version"
for command in $commands; do
    help=$("$tnc" help "$command")
    [ "$("$tnc" "$command" --help)" = "$help" ] || fault "$command --help is not help $command"
    [ "$(joined <<<"$help" | sed -n '1s/^Usage: //p')" = "$(grep "^tnc $command\( \|$\)" <<<"$synopsis")" ] \
        || fault "help $command has another synopsis"
    told=$(sed -n 's/^  \(--[a-z0-9-]*\)\( n\| name\| how\| calls\| call\| port\| A\.B\.C\.D\|\) .*/\1\2/p' <<<"$help" | sort)
    [ "$told" = "$(sed -n "s/^$command|\([^|]*\)|.*/\1/p" <<<"$entries" | sort)" ] || fault "help $command has the options" $told
    while IFS='|' read -r _ option text; do
        line=$(grep -- "^  $option  *" <<<"$help" || true)
        if [[ $text =~ From\ ([0-9]+)\ to\ ([0-9]+) ]]; then
            grep -q "\b${BASH_REMATCH[1]} to ${BASH_REMATCH[2]}\b" <<<"$line" || fault "help $command: $option has another range"
        fi
        if [[ $text =~ \;\ ([0-9a-z]+)\ if\ it\ is\ not\ given ]]; then
            [[ $line = *"(${BASH_REMATCH[1]})"* ]] || fault "help $command: $option has another default"
        fi
    done < <(grep "^$command|" <<<"$entries" || true)
done

# Each report line and each line for what is no frame.
plain=$(sed 's/\\-/-/g; s/^\.[A-Z]* "\{0,1\}//; s/"//g' "$page")
texts=$(sed -n '
        s/^name_of_flaw .*codes "\(.*\)"$/tnc: bad input: \1 at /p
        s/^wav_text .* = codes "\([a-z ]*[a-z]\) \{0,1\}".*/tnc: bad input: \1 /p
        s/^input_text .*codes "too long.*/tnc: bad input: too long at /p
        s/^.*codes "\(tnc: [a-z ]*[a-z]\) *".*/\1/p' crates/tnc_main/specs/Report.antt
    sed -n '/out of memory/d; s/^[a-z_]*fault[a-z_]* .*codes "\(! [a-z ]*[a-z]\) *".*/\1/p' \
        crates/ax25_frames/specs/FrameText.antt)
while read -r text; do
    grep -qF -- "$text" <<<"$plain" || fault "there is no line '$text'"
done <<<"$texts"
[ "$(wc -l <<<"$texts")" -ge 20 ] || fault "only $(wc -l <<<"$texts") lines were looked for"

# Each exit status.
codes=$(sed -n 's/^code_of [A-Za-z]* = \([0-9]*\)$/\1/p' crates/tnc_main/specs/Status.antt)
listed=$(awk '/^\.SH /{ inside = $2 == "EXIT" } inside && /^\.B [0-9]+$/ { print $2 }' "$page")
[ "$codes" = "$listed" ] || fault "its statuses are" $listed "and the program's" $codes

# The examples, one after another in a folder of their own.
mkdir "$room/bin" "$room/work"
ln -s "$tnc" "$room/bin/tnc"
cp samples/direwolf-clean.raw "$room/work/recording.raw"
awk '/^\.EX/{ inside = 1; next } /^\.EE/{ inside = 0 } inside' "$page" | sed 's/\\-/-/g; s/\\e/\\/g' >"$room/examples"
if command -v sox >/dev/null; then
    sox -q -t raw -r 9600 -e signed -b 16 -c 1 samples/direwolf-clean.raw -r 48000 "$room/work/recording.wav"
else
    sed -i '/^sox/d' "$room/examples"
    echo "skipped: the manual page's examples with sox (sox is not installed)"
fi
while read -r line; do
    (cd "$room/work" && PATH=$room/bin:$PATH && eval "$line") >"$room/output" 2>"$room/report" </dev/null \
        || fault "its example '$line' ends with status $?"
    [[ ! -s $room/report && ( -s $room/output || $line == *">"* ) ]] \
        || fault "its example '$line' says nothing, or has a report"
done <"$room/examples"

# The page itself.
if command -v groff >/dev/null; then
    groff -man -ww -Tascii "$page" 2>"$room/report" >/dev/null || true
    [ ! -s "$room/report" ] || fault "groff warns: $(head -n 3 "$room/report")"
else
    echo "skipped: the manual page as groff reads it (groff is not installed)"
fi

[ "$faults" = 0 ]

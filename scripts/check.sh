#!/usr/bin/env bash
# The end-to-end checks: the built program on recordings that other people's programs made, and other people's programs
# on what it makes. They run after the proofs, in less than two minutes. What goes at the pace of sound, or with programs
# that have clocks of their own, is in scripts/check_live.sh.
#   scripts/check.sh [PROGRAM]       builds the program and checks it, or checks the one that is named
set -euo pipefail
cd "$(dirname "$0")/.."
tnc=$(realpath "${1:-$(scripts/build.sh | tail -n 1)}")
passed=0 failed=0 skipped=0
room=$(mktemp -d)
trap 'rm -rf "$room"' EXIT

# Says how one check went: NAME, and whether the command after it holds.
check() {
    if "${@:2}"; then
        passed=$((passed + 1))
    else
        failed=$((failed + 1))
        echo "FAILED: $1"
    fi
}

# Says that a check was left out: NAME, and the program that is not installed.
skip() {
    skipped=$((skipped + 1))
    echo "skipped: $1 ($2 is not installed)"
}

# Whether programs are installed.
has() {
    local program
    for program in "$@"; do
        command -v "$program" >/dev/null || return
    done
}

# STATUS REPORT WORDS..: the program answers this status, and its report is this one line, or nothing. What it writes is
# kept in $room/output.
answers() {
    local status=0
    "$tnc" "${@:3}" >"$room/output" 2>"$room/report" || status=$?
    [ "$status" = "$1" ] && cmp -s "$room/report" <(printf '%s' "${2:+$2$'\n'}")
}

# STATUS REPORT OUTPUT TEXT WORDS..: the same of an input, written as printf has it, and with this output.
answers_to() {
    printf "$4" | answers "$1" "$2" "${@:5}" && cmp -s "$room/output" <(printf "$3")
}

# COMMAND..: what it prints is shown only if it fails.
quietly() {
    "$@" >"$room/told" || { cat "$room/told"; return 1; }
}

# WORDS..: refused, with nothing written.
is_refused() {
    answers 1 "tnc: bad words" "$@" </dev/null && [ ! -s "$room/output" ]
}

# WORDS..: an output that takes nothing.
cannot_write() {
    local status=0
    "$tnc" "$@" >/dev/full 2>"$room/report" || status=$?
    [ "$status" = 5 ] && [ ! -s "$room/report" ]
}

# WORDS..: an input that is no file to read.
cannot_read() {
    answers 4 "" "$@" </ && [ ! -s "$room/output" ]
}

# 9600 samples of silence: as many come out, and no report.
hears_nothing() {
    head -c 19200 /dev/zero >"$room/silence"
    answers 0 "" serve --kiss 18100 --agw 18101 <"$room/silence" && cmp -s "$room/output" "$room/silence"
}

# One port for both kinds of host is taken already.
has_no_port() {
    answers 10 "tnc: no port" serve --kiss 18100 --agw 18100 </dev/null && [ ! -s "$room/output" ]
}

# No station listens for a call.
has_no_host() {
    answers 11 "tnc: no host" call --agw 18102 --from N7LEM --to NJ7P </dev/null && [ ! -s "$room/output" ]
}

# RECORDING: its sound, as much as the ring holds, is kept sample by sample, and its frames are told.
records() {
    head -c 120000 "$1.raw" >"$room/heard.raw"
    "$tnc" record <"$room/heard.raw" >"$room/kept.wav" 2>"$room/report" \
        && tail -c +45 "$room/kept.wav" | cmp -s - "$room/heard.raw" \
        && sed 's/^frame [0-9]* //' "$room/report" | cmp -s - <("$tnc" decode <"$room/heard.raw")
}

# OPTION..: what two stations carry to each other's hosts is what these gave.
stations_agree() {
    scripts/checks/check_serve.py --tnc "$tnc" --octets 1500 "$@" >"$room/told" || { cat "$room/told"; return 1; }
}

# The raw PCM in a file, as sox is told of it.
pcm=(-t raw -r 9600 -e signed -b 16 -c 1)

# The head of a WAV file of 9600 samples a second that was written into a pipe, as printf has it.
head_of_pipe='RIFF\x24\xf0\xff\x7fWAVEfmt \x10\0\0\0\x01\0\x01\0\x80\x25\0\0\0\x4b\0\0\x02\0\x10\0data\0\xf0\xff\x7f'

# RECORDING: the frames of a recording, in order and no others.
decodes() {
    "$tnc" decode <"$1.raw" | cmp -s - "$1.frames"
}

# RECORDING: the same of a WAV file that sox made of it.
decodes_wav() {
    sox -q "${pcm[@]}" "$1.raw" "$room/recording.wav" \
        && "$tnc" decode --wav <"$room/recording.wav" | cmp -s - "$1.frames"
}

# RECORDING: the same of a WAV file that sox writes into a pipe, whose head does not tell its length.
decodes_piped_wav() {
    sox -q "${pcm[@]}" "$1.raw" -t wav - 2>/dev/null | "$tnc" decode --wav | cmp -s - "$1.frames"
}

# RECORDING: the same of a WAV file of another rate, brought back to 9600 as the README shows it.
decodes_resampled() {
    sox -q "${pcm[@]}" "$1.raw" -r 48000 "$room/48000.wav" \
        && sox -q "$room/48000.wav" "${pcm[@]}" - | "$tnc" decode | cmp -s - "$1.frames"
}

# RECORDING: of a recording of 48,000 samples a second, raw and as a WAV file, each of its frames is heard.
decodes_wide() {
    sox -q "${pcm[@]}" "$1.raw" -r 48000 "$room/48000.wav" \
        && sox -q "$room/48000.wav" -t raw -e signed -b 16 -c 1 "$room/48000.raw" \
        && "$tnc" decode --rate 48000 <"$room/48000.raw" >"$room/raw.lines" \
        && "$tnc" decode --wav <"$room/48000.wav" | cmp -s - "$room/raw.lines" \
        && "$tnc" decode --wav --threads <"$room/48000.wav" | cmp -s - "$room/raw.lines" \
        && [ -z "$(sort "$1.frames" | comm -23 - <(sort "$room/raw.lines"))" ] \
        && "$tnc" decode --rate 48000 --sensitive <"$room/48000.raw" >"$room/all.lines" \
        && "$tnc" decode --wav --sensitive --threads <"$room/48000.wav" | cmp -s - "$room/all.lines" \
        && [ -z "$(sort "$1.frames" | comm -23 - <(sort "$room/all.lines"))" ]
}

# RECORDING: all lanes hear each frame that eight hear, with threads as without.
decodes_sensitively() {
    "$tnc" decode --sensitive <"$1.raw" >"$room/more.lines" \
        && "$tnc" decode --sensitive --threads <"$1.raw" | cmp -s - "$room/more.lines" \
        && [ -z "$("$tnc" decode <"$1.raw" | sort | comm -23 - <(sort "$room/more.lines"))" ]
}

# FRAMES CHECKS: what encode sends in blocks of FX.25 is heard by eight lanes and by all, with threads as without.
comes_back_in_blocks() {
    local words
    "$tnc" encode --fx25 "$2" <"$1" >"$room/blocks.raw" || return
    for words in "" --threads --sensitive "--sensitive --threads"; do
        "$tnc" decode --fx25 $words <"$room/blocks.raw" | cmp -s - "$1" || return
    done
}

# FRAMES WORDS..: what encode sends at 300 bits a second is heard there, in order, and no frame of it at 1200.
comes_back_on_short_wave() {
    "$tnc" encode --hf "${@:2}" <"$1" >"$room/hf.raw" \
        && "$tnc" decode --hf <"$room/hf.raw" | cmp -s - "$1" \
        && "$tnc" decode --hf --sensitive <"$room/hf.raw" | cmp -s - "$1" \
        && [ -z "$("$tnc" decode <"$room/hf.raw")" ]
}

# FRAMES: atest hears it, each octet.
is_heard_on_short_wave() {
    "$tnc" encode --hf <"$1" | sox -q "${pcm[@]}" - -r 48000 "$room/sent.wav" \
        && heard_by_atest "$room/sent.wav" 300 | cmp -s - "$1"
}

# TEXT WORDS..: what bench prints.
benches() {
    "$tnc" bench "${@:2}" | cmp -s - <(printf "$1")
}

# RECORDING SIZE: the same where the input comes in pieces of so many octets.
decodes_pieces() {
    dd status=none ibs=64K obs="$2" if="$1.raw" | "$tnc" decode | cmp -s - "$1.frames"
}

# RECORDING: the same by way of a KISS file, back to sound and to lines.
decodes_through_kiss() {
    "$tnc" decode --kiss <"$1.raw" | "$tnc" encode --kiss | "$tnc" decode | cmp -s - "$1.frames"
}

# FILE: the output in $room/output is that of this file, within ten seconds.
becomes() {
    local turn
    for turn in {1..100}; do
        if cmp -s "$room/output" "$1"; then return; fi
        sleep 0.1
    done
    return 1
}

# FRAMES WORDS..: of sound that comes out of a pipe which stays open, each frame is written before the next one is sent.
decodes_at_once() {
    local program line at_once=0
    mkfifo "$room/pipe"
    "$tnc" decode "${@:2}" <"$room/pipe" >"$room/output" &
    program=$!
    exec 3>"$room/pipe"
    : >"$room/sent.raw"
    while read -r line; do
        "$tnc" encode <<<"$line" | tee -a "$room/sent.raw" >&3
        "$tnc" decode "${@:2}" <"$room/sent.raw" >"$room/expected"
        becomes "$room/expected" || at_once=1
    done < <(head -n 3 "$1")
    exec 3>&-
    wait "$program" || at_once=1
    rm "$room/pipe"
    return "$at_once"
}

# The peak memory of decode on what comes, in KiB.
peak_of_decode() {
    /usr/bin/time -f %M "$tnc" decode "$@" 2>&1 >/dev/null
}

# MINUTES: a recording over and over, four times a minute, which is a little longer.
sound_of() {
    local turn
    for ((turn = 0; turn < 4 * $1; turn++)); do cat samples/direwolf-clean.raw; done
}

# HEAD WORDS..: of an hour of sound after a head decode takes the memory that it takes of a minute, to a few pages of the
# system's, and less than 4 MiB.
keeps_no_sound() {
    local minute hour
    minute=$({ printf "$1"; sound_of 1; } | peak_of_decode "${@:2}")
    hour=$({ printf "$1"; sound_of 60; } | peak_of_decode "${@:2}")
    [ "$hour" -lt 4096 ] && [ "$((hour - minute))" -lt 512 ]
}

# Recordings out of pipes that are cut at random, with threads and without, give their frames.
hears_alike_however_cut() {
    scripts/checks/check_cuts.py --tnc "$tnc" >"$room/told" || { cat "$room/told"; return 1; }
}

# FRAMES WORDS..: lines of frames come back from the sound that encode makes of them.
comes_back() {
    "$tnc" encode "${@:2}" <"$1" | "$tnc" decode | cmp -s - "$1"
}

# FRAMES WORDS..: the same through a WAV file.
comes_back_from_wav() {
    "$tnc" encode --wav "${@:2}" <"$1" | "$tnc" decode --wav | cmp -s - "$1"
}

# FRAMES WORDS..: the octets that encode makes of lines.
octets_of() {
    "$tnc" encode "${@:2}" <"$1" | wc -c
}

# FRAMES: a flag is 128 octets of sound, a joined transmission lacks the flags between its frames but one, and silence
# stands in front.
has_lengths() {
    local count plain
    count=$(wc -l <"$1") plain=$(octets_of "$1")
    [ "$((plain - $(octets_of "$1" --join)))" = "$(((count - 1) * 76 * 128))" ] \
        && [ "$(($(octets_of "$1" --opening 80 --closing 7) - plain))" = "$((count * 10 * 128))" ] \
        && [ "$(($(octets_of "$1" --silence 5) - plain))" = "$((count * 10))" ] \
        && [ "$(($(octets_of "$1" --join --silence 5) - $(octets_of "$1" --join)))" = 10 ] \
        && [ "$(($(octets_of "$1" --wav) - plain))" = 44 ] \
        && cmp -s <("$tnc" encode --silence 5 <"$1" | head -c 14) \
            <(head -c 10 /dev/zero; "$tnc" encode <"$1" | head -c 4)
}

# A frame with both octets that KISS writes as two.
escapes() {
    local line=c0dbdcdd0102030405060708090a0b
    local spelled='\xc0\0\xdb\xdc\xdb\xdd\xdc\xdd\x01\x02\x03\x04\x05\x06\x07\x08\x09\x0a\x0b\xc0'
    printf '%s\n' "$line" | "$tnc" encode | "$tnc" decode --kiss >"$room/frames.kiss" \
        && cmp -s "$room/frames.kiss" <(printf "$spelled") \
        && [ "$("$tnc" encode --kiss <"$room/frames.kiss" | "$tnc" decode)" = "$line" ]
}

# FRAMES: sox reads the WAV file of encode as its raw samples.
is_wav_for_sox() {
    "$tnc" encode --wav <"$1" >"$room/made.wav" \
        && sox -q "$room/made.wav" "${pcm[@]}" - | cmp -s - <("$tnc" encode <"$1")
}

# A stored text of decode and show. It was made by the program once; then each of its lines was compared with what
# Dire Wolf's atest prints of the recording (addresses, their SSIDs, kind, p/f, length and every octet), and with the
# rules of a line of `show` by a reading of the octets that shares nothing with the program.
shows_stored_text() {
    "$tnc" decode <samples/direwolf-clean.raw | "$tnc" show | cmp -s - samples/direwolf-clean.text
}

# A WAV file that ends an octet early: told, and the frames before are given.
is_cut_short() {
    "$tnc" encode --wav --closing 20 <samples/direwolf-clean.frames >"$room/whole.wav"
    local size
    size=$(stat -c %s "$room/whole.wav")
    head -c -1 "$room/whole.wav" | answers 2 "tnc: bad input: truncated at $((size - 1))" decode --wav \
        && cmp -s "$room/output" samples/direwolf-clean.frames
}

# A WAV file of 44100 samples a second: told, at the last octet of the rate.
is_other_rate() {
    "$tnc" encode --wav <samples/direwolf-clean.frames >"$room/whole.wav"
    { head -c 24 "$room/whole.wav"; printf '\x44\xac\0\0'; tail -c +29 "$room/whole.wav"; } >"$room/other.wav"
    answers 2 "tnc: bad input: bad format 3 value 44100 at 27" decode --wav <"$room/other.wav" && [ ! -s "$room/output" ]
}

# PLACE FLAW LINE: a bad line after a good one, told at its place, and the frame before it is sent.
is_bad_line() {
    local line=9c6e988a9a40e0ac9664848484e103f0
    printf '%s\n' "$line" | "$tnc" encode >"$room/sent.raw"
    printf '%s\n%s' "$line" "$3" | answers 2 "tnc: bad input: $2 at $((33 + $1))" encode \
        && cmp -s "$room/output" "$room/sent.raw"
}

# A loop on a signal that it makes itself.
loops() {
    answers 0 "" loop --seed 7 --frames 20 </dev/null \
        && cmp -s "$room/output" <(printf 'frames 20\nheard 20\nstray 0\nhash 3c053d315c843125\n')
}

# A loop on a signal that is not clean.
loops_roughly() {
    answers 0 "" loop --seed 7 --frames 20 --rough </dev/null \
        && cmp -s "$room/output" <(printf 'frames 20\nheard 20\nstray 0\nhash a3787c7f30285198\n')
}

# The frames that Dire Wolf's atest hears in a WAV file, as lines of hexadecimal digits.
heard_by_atest() {
    atest -B "${2:-1200}" -h "$1" | sed 's/\x1b\[[0-9;]*[A-Za-z]//g' | awk '
        /^  [0-9a-f][0-9a-f][0-9a-f]:  / { octets = substr($0, 9, 48); gsub(/ /, "", octets); line = line octets; next }
        line != "" { print line; line = "" }
        END { if (line != "") print line }'
}

# The UI frames that multimon-ng hears in raw samples of 22050 a second, as show writes them; it prints no H bits.
heard_by_multimon() {
    multimon-ng -q -t raw -a AFSK1200 - | LC_ALL=C awk '
        BEGIN { for (i = 32; i < 127; i++) code[sprintf("%c", i)] = sprintf("%02x", i) }
        function call(text) { sub(/-0$/, "", text); return text }
        /^AFSK1200: fm / {
            line = call($3) ">" call($5)
            rest = 6
            if ($6 == "via") {
                n = split($7, repeaters, ",")
                for (i = 1; i <= n; i++) line = line "," call(repeaters[i])
                rest = 8
            }
            pid = $NF
            sub(/^pid=/, "", pid)
            line = line " " $rest " cmd f=0 pid=" tolower(pid)
            next
        }
        {
            text = ""
            for (i = 1; i <= length($0); i++) text = text code[substr($0, i, 1)]
            print line " len=" length($0) " " text
        }'
}

# FRAMES WORDS..: atest hears what encode sends, each octet of it.
is_heard_by_atest() {
    "$tnc" encode "${@:2}" <"$1" | sox -q "${pcm[@]}" - -r 48000 "$room/sent.wav" \
        && heard_by_atest "$room/sent.wav" | cmp -s - "$1"
}

# FRAMES: multimon-ng hears what encode sends. The line feed at the end of each text is left out, as multimon-ng shows
# it as a dot; all that is left of an information field can be read.
is_heard_by_multimon() {
    sed 's/0a$//' "$1" >"$room/readable.frames"
    "$tnc" show <"$room/readable.frames" >"$room/readable.text"
    "$tnc" encode --silence 960 <"$room/readable.frames" | sox -q "${pcm[@]}" - -t raw -r 22050 -e signed -b 16 -c 1 - \
        | heard_by_multimon | cmp -s - "$room/readable.text"
}

# Recordings, and back from their frames.
for raw in samples/*.raw; do
    of=${raw%.raw}
    check "decode of $raw" decodes "$of"
    check "decode --kiss of $raw, and back" decodes_through_kiss "$of"
    check "decode --sensitive of $raw" decodes_sensitively "$of"
    for size in 1 3 2047 4097; do
        check "decode of $raw in pieces of $size" decodes_pieces "$of" "$size"
    done
    if has sox; then
        check "decode --wav of $raw" decodes_wav "$of"
        check "decode --wav of $raw out of a pipe" decodes_piped_wav "$of"
        check "decode of $raw by way of 48000 samples a second" decodes_resampled "$of"
        check "decode of $raw at 48000 samples a second" decodes_wide "$of"
        check "encode --wav of $of.frames, read by sox" is_wav_for_sox "$of.frames"
    else
        skip "WAV files of $raw" sox
    fi
    for words in "" --join "--silence 5" "--opening 2 --closing 1" "--join --silence 1001 --closing 9" "--level 10" \
        "--level 32767"; do
        check "encode $words of $of.frames, and back" comes_back "$of.frames" $words
        check "encode --wav $words of $of.frames, and back" comes_back_from_wav "$of.frames" $words
    done
    check "record of $raw" records "$of"
    check "the lengths of what encode makes of $of.frames" has_lengths "$of.frames"
    check "encode --hf of $of.frames, and back" comes_back_on_short_wave "$of.frames" --silence 77
    for checks in 16 32 64; do
        check "encode --fx25 $checks of $of.frames, and back" comes_back_in_blocks "$of.frames" "$checks"
    done
done
check "C0 and DB in KISS" escapes
check "decode and show of samples/direwolf-clean.raw" shows_stored_text
check "decode of a pipe that stays open" decodes_at_once samples/direwolf-clean.frames
check "decode --kiss of a pipe that stays open" decodes_at_once samples/direwolf-clean.frames --kiss
if has python3; then
    check "decode of pipes that are cut at random" hears_alike_however_cut
else
    skip "decode of pipes that are cut at random" python3
fi
if has /usr/bin/time; then
    check "the memory of decode" keeps_no_sound ""
    check "the memory of decode --wav" keeps_no_sound "$head_of_pipe" --wav
else
    skip "the memory of decode" time
fi

# Other people's programs on what encode sends.
for frames in samples/*.frames; do
    if has sox atest; then
        check "encode of $frames, heard by atest" is_heard_by_atest "$frames"
        check "encode --join of $frames, heard by atest" is_heard_by_atest "$frames" --join
        check "encode --level 10 of $frames, heard by atest" is_heard_by_atest "$frames" --level 10
        check "encode --fx25 32 of $frames, heard by atest" is_heard_by_atest "$frames" --fx25 32
    else
        skip "encode of $frames, heard by atest" "sox or atest"
    fi
done
frames=samples/direwolf-clean.frames
if has sox atest; then
    check "encode --hf of $frames, heard by atest" is_heard_on_short_wave "$frames"
else
    skip "encode --hf of $frames, heard by atest" "sox or atest"
fi
if has sox multimon-ng; then
    check "encode of $frames, heard by multimon-ng" is_heard_by_multimon "$frames"
else
    skip "encode of $frames, heard by multimon-ng" "sox or multimon-ng"
fi

# Inputs with nothing in them, and inputs that are not what they should be.
head_of_nothing='RIFF\x24\0\0\0WAVEfmt \x10\0\0\0\x01\0\x01\0\x80\x25\0\0\0\x4b\0\0\x02\0\x10\0data\0\0\0\0'
check "decode of nothing" answers_to 0 "" "" "" decode
check "decode --wav of no sample" answers_to 0 "" "" "$head_of_nothing" decode --wav
check "decode --wav of nothing" answers_to 2 "tnc: bad input: truncated at 0" "" "" decode --wav
check "decode --wav of what is no WAV file" answers_to 2 "tnc: bad input: not riff at 0" "" "riff" decode --wav
check "encode of nothing" answers_to 0 "" "" "" encode
check "encode --wav of nothing" answers_to 0 "" "$head_of_nothing" "" encode --wav
check "encode --kiss of a frame that has not ended" answers_to 0 "" "" '\xc0\0\x41' encode --kiss
check "show of nothing" answers_to 0 "" "" "" show
check "show of octets that are no frame" answers_to 0 "" "! short at 2\n! bad character at 0\n" "8282\n\n010203\n" show
check "a WAV file that ends an octet early" is_cut_short
check "a WAV file of 44100 samples a second" is_other_rate
check "a line with a bad digit" is_bad_line 3 "bad digit" 9c6x
check "a line with an odd digit" is_bad_line 0 "odd line" 9c6
check "a line of 14 octets" is_bad_line 0 "short line" 9c6e988a9a40e0ac9664848484e1
check "a line of 1025 octets" is_bad_line 0 "long line" "$(printf '%02050d' 0)"
check "a loop" loops
check "a rough loop" loops_roughly
nothing="given 0 cbf29ce484222325 got 0 cbf29ce484222325"
check "a bench" benches "ticks 172\nsent 4 lost 0\nA 1 $nothing\nB 1 $nothing\n" --seed 7 --octets 0 --full
check "a wide bench" benches "ticks 172\nsent 4 lost 0\nA 1 $nothing\nB 1 $nothing\n" --seed 7 --octets 0 --full --wide

# Live stations: one whose air is silence, one that cannot have its ports, and two that hear each other and carry text both
# ways between their host programs.
check "a station that hears nothing" hears_nothing
check "a station without its ports" has_no_port
check "a call without its station" has_no_host
if has python3; then
    check "two stations" stations_agree
    check "two stations by SREJ, a fifth of the transmissions lost" stations_agree --mode srej --loss 20
    check "two stations modulo 128, half duplex, some lost" stations_agree --wide --half --loss 10
    check "hosts that send each message" scripts/checks/check_hosts.py --tnc "$tnc"
    check "programs of the web at the ports" scripts/checks/check_web.py --tnc "$tnc"
    check "the ports are those of 127.0.0.1 alone" scripts/checks/check_sockets.py --tnc "$tnc"
    check "a recording at twenty times the pace of sound" quietly scripts/checks/check_record.py --tnc "$tnc"
    check "calls over two stations" quietly scripts/checks/check_call.py --tnc "$tnc"
else
    skip "two stations" python3
    skip "hosts that send each message" python3
    skip "programs of the web at the ports" python3
    skip "the ports are those of 127.0.0.1 alone" python3
    skip "a recording at twenty times the pace of sound" python3
    skip "calls over two stations" python3
fi

# The page to look at. It needs aiohttp, which Debian has for its own Python.
if /usr/bin/python3 -c 'import aiohttp' 2>/dev/null; then
    check "the console" quietly scripts/checks/check_console.py --tnc "$tnc"
else
    skip "the console" aiohttp
fi

# What the build tells of itself.
if has python3; then
    check "what scripts/build.sh tells" scripts/checks/check_build.py
else
    skip "what scripts/build.sh tells" python3
fi

# Words that are refused, and streams that fail.
check "a word that is no command" is_refused decod
check "no word" is_refused
for words in "decode --rate 44100" "decode --hf --threads" "decode --hf --rate 48000" "decode --hf --sensitive --threads" "decode --wav=yes" \
    "decode recording.raw" "help nothing" "version 1" "bench" "bench --seed 7 --loss 91" "encode --opening 1" "encode --silence 1000001" "encode --level 9" "encode --level 32768" "show --modulo 16" "loop --seed 7" "loop --seed 7 --frames 1001" \
    "record --keep 0" "record --keep 17280001" "call --agw 8000 --from N7LEM" "call --agw 8000 --from N7LEM --to NJ7P --via N7LEM," \
    "call --agw 8000 --from N7LEM --to NJ7P --polls 0"; do
    check "$words" is_refused $words
done
check "decode to a full disk" cannot_write decode <samples/direwolf-clean.raw
check "encode to a full disk" cannot_write encode <samples/direwolf-clean.frames
check "show to a full disk" cannot_write show <samples/direwolf-clean.frames
check "loop to a full disk" cannot_write loop --seed 7 --frames 2
for command in decode encode show; do
    check "$command of a folder" cannot_read $command
done

# The manual page, what the documents show, and the scores of sound that is not clean.
check "the manual page and the program agree" scripts/checks/check_manual.sh "$tnc"
if has python3; then
    check "the documents show what the program prints" scripts/checks/check_readme.py "$tnc"
    check "the files to believe are those that the contracts name" scripts/checks/trust_table.py --check
    check "what the documents name is there" scripts/checks/check_docs.py "$tnc"
    check "the pages on clauses and definitions say what the sources have" scripts/checks/check_clauses.py
    check "the table of coarse counts is that of the tags" scripts/checks/coarse_rows.py --check
    check "scores within their bounds" scripts/trials/scores.py --check --tnc "$tnc"
else
    skip "the documents show what the program prints" python3
    skip "the files to believe are those that the contracts name" python3
    skip "scores within their bounds" python3
fi

echo "$passed passed, $failed failed, $skipped skipped"
[ "$failed" = 0 ]

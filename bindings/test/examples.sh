#!/usr/bin/env bash
# Compares what the examples print with what is due: what rtp_lines prints of captures/*.lines and by_hand.lines, and
# what was worked out by hand. Ends at the first that prints other things.
#
# usage: bindings/test/examples.sh FOLDER [EMULATOR]
#        FOLDER has those of the programs lines_*, receive, receive_rust, forward, sfu_*, ends, many, and sockets with
#        udp that are to be compared.
set -euo pipefail
folder=$(cd -- "$1" && pwd)
emulator=("${@:2}")
cd -- "$(dirname -- "$(readlink -f -- "${BASH_SOURCE[0]}")")/../.."
scratch=$(mktemp -d)
trap 'rm -rf -- "$scratch"' EXIT
fail() {
    echo "examples.sh: $*" >&2
    exit 1
}

# No map lines: of an id that none has or that no one to three digits spell, without a URI, or with other spaces.
bad_maps=('map 0 urn:x' 'map 000 urn:x' 'map 256 urn:x' 'map 257 urn:x' 'map 300 urn:x' 'map 512 urn:x' 'map 999 urn:x' 'map +3 urn:x' 'map -3 urn:x' 'map 0x3 urn:x'
    'map 0003 urn:x' 'map 1234 urn:x' 'map 3a urn:x' 'map 3' 'map 3 ' 'map 3 \r' 'map' 'map ' 'map  3 urn:x'
    'map\t3 urn:x' 'map 3\turn:x' ' map 3 urn:x' 'mop 3 urn:x' 'MAP 3 urn:x' 'map urn:x 3')
# No URI, since it is no UTF-8: a byte that goes on or begins nothing, one too few or another, one that has to be
# greater or less as the second one (U+0800, D7FF, 10000, 10FFFF are the ends), and more than are in one character.
bad_uris=('map 3 \x80' 'map 3 urn:\xff' 'map 3 \xc1\xbf' 'map 3 \xc3' 'map 3 \xc3x' 'map 3 \xc3\xc3' 'map 3 \xe2\x82'
    'map 3 \xe2\x82x' 'map 3 \xf0\x9f\x98' 'map 3 \xf0\x9f\x98\xc0' 'map 3 \xe0\x9f\xbf' 'map 3 \xed\xa0\x80'
    'map 3 \xf0\x8f\xbf\xbf' 'map 3 \xf4\x90\x80\x80' 'map 3 \xf5\x80\x80\x80' 'map 3 \xf8\x88\x80\x80\x80'
    'map 3 \xc3\xa9\xa9')
# No hexadecimal: an odd number of digits, another letter, a carriage return that isn't before the line feed, and a
# zero byte.
bad_hex=(802 8G '80\rGG' '80\r80' '80\r\r' '\r80' '80\x00' '80\x0080' '80\x00GG' '\x0080')
printf 'packet 1: unreadable\nverdict 1: unreadable\nline 2: neither a map line nor hex\n' >"$scratch/second"
echo 'line 1: neither a map line nor hex' >"$scratch/first"
echo 'line 2: neither a map line nor hex' >"$scratch/later"
is_bad() { # what is printed, the lines, the program
    local status=0
    printf '%b\n' "$2" | "${@:3}" >"$scratch/said" || status=$?
    [ $status -eq 2 ] && cmp "$scratch/said" "$scratch/$1" >&2 || fail "${*:3}, the bad line $2"
}
is_bad_uri() { # the line, the program: in Rust text that is no UTF-8 can't be read
    local status=0
    [[ $* == *_rust ]] || { is_bad first "$@"; return; }
    printf '%b\n' "$1" | "${@:2}" >"$scratch/said" 2>"$scratch/told" || status=$?
    [ $status -eq 1 ] && [ ! -s "$scratch/said" ] || fail "${*:2}, the bad line $1"
}
is_bad_at_the_end() { # the program, of a line that ends with the input, behind a carriage return
    local status=0
    printf '80\r' | "$@" >"$scratch/said" || status=$?
    [ $status -eq 2 ] && cmp "$scratch/said" "$scratch/first" >&2 || fail "$*, a carriage return at the end"
}
# Three numbers for each 65,536, and at last one: 2^32.
far() { awk 'BEGIN { for (i = 0; i <= 3 * 65536; i++) printf "8000%04X000000000000002C\n", i % 3 * 21845 }'; }
reads_a_folder() { # the program: its status is 1
    local status=0
    "$@" <"$scratch" >"$scratch/said" 2>"$scratch/told" || status=$?
    [ $status -eq 1 ] || fail "$*, a folder"
    says_why "$@"
}
says_why() { # the program: what the system said of a file; in C and C++ the status is all
    [[ $* != *_@(go|rust) ]] || [ -s "$scratch/told" ] || fail "$*, without a word"
}
# Each of P, X and M with and without each of the others: a block, where there is one, has no word.
no_or_yes=(no yes)
for flags in {0..7}; do
    block=$([ $((flags & 2)) -eq 0 ] || echo BEDE0000)
    printf '%02X%02X000%d000000010000002C%s\n' $((0x80 | (flags & 1) << 5 | (flags & 2) << 3)) \
        $((96 | (flags & 4) << 5)) "$flags" "$block" >>"$scratch/flags.lines"
    echo "packet $((flags + 1)): pt 96 seq $flags ts 1 ssrc 44 marker ${no_or_yes[flags >> 2]}" \
        "padding ${no_or_yes[flags & 1]} extension ${no_or_yes[flags >> 1 & 1]} csrc 0 header $((12 + 2 * (flags & 2)))"
    echo "verdict $((flags + 1)): taken $flags"
done >"$scratch/flags.expected"
tells_a_full_device() { # the line, the program
    local status=0
    printf '%b\n' "$1" | "${@:2}" >/dev/full 2>"$scratch/told" || status=$?
    [ $status -eq 1 ] || fail "${*:2}, what can't be written"
    says_why "${@:2}"
}
tells_a_full_device_of_a_bad_line() { # the program: in the other languages the status is that of the bad line
    [[ $* != *_rust ]] || for bad in 8G '80\n8G'; do tells_a_full_device "$bad" "$@"; done
}
# Ids are decimal numbers, also with zeros before them, and the last line of an id counts. In the two-byte form: the mid
# a of the id 10, the rid b of 8, the repaired rid c of 77, -10 dB with voice of 99, 258 of 255; and a mid of 9 and a
# level of 64, which mean nothing in the end.
audio_level=urn:ietf:params:rtp-hdrext:ssrc-audio-level
cat >"$scratch/spelled.lines" <<END
map 9 urn:ietf:params:rtp-hdrext:sdes:mid
map 064 $audio_level
map 010 urn:ietf:params:rtp-hdrext:sdes:mid
map 08 urn:ietf:params:rtp-hdrext:sdes:rtp-stream-id
map 077 urn:ietf:params:rtp-hdrext:sdes:repaired-rtp-stream-id
map 099 $audio_level
map 255 http://www.ietf.org/id/draft-holmer-rmcat-transport-wide-cc-extensions-01
map 009 urn:x
map 64 ${audio_level}s
90000001000000010000002C100000060A01610801624D016363018AFF02010209015A40018B0000
END
cat >"$scratch/spelled.expected" <<'END'
packet 1: pt 0 seq 1 ts 1 ssrc 44 marker no padding no extension yes csrc 0 header 40 mid a rid b repaired c level -10 voice yes transport 258
verdict 1: taken 1
END
# The greatest values: -127 dB without voice, and 16,777,215 units of 2^-18 s, which are 63,999,996.2 microseconds; and a
# header of 16 and 4 * 16,385 bytes.
{
    printf '%s\n' "map 1 $audio_level" 'map 2 http://www.webrtc.org/experiments/rtp-hdrext/abs-send-time'
    printf '90000001000000010000002CBEDE4001107F22FFFFFF%0131068d\n' 0
} >"$scratch/greatest.lines"
cat >"$scratch/greatest.expected" <<'END'
packet 1: pt 0 seq 1 ts 1 ssrc 44 marker no padding no extension yes csrc 0 header 65556 level -127 voice no send 63999996
verdict 1: taken 1
END
# Each byte in lowercase and uppercase, as the timestamp; and 300 sources, of which each sends one packet twice.
awk 'BEGIN {
    for (i = 0; i < 256; i++) {
        byte = sprintf(i % 2 ? "%02X" : "%02x", i)
        printf "8000%04x%s%s%s%s0000002c\n", i, byte, byte, byte, byte
        byte = sprintf(i % 2 ? "%02x" : "%02X", i)
        printf "8000%04X%s%s%s%s0000002D\n", i, byte, byte, byte, byte
    }
    for (i = 0; i < 600; i++) printf "8000000500000000%08X\n", i % 300 * 65537
}' >"$scratch/bytes.lines"
awk 'BEGIN {
    rest = "marker no padding no extension no csrc 0 header 12"
    for (i = 0; i < 512; i++) {
        printf "packet %d: pt 0 seq %d ts %.0f ssrc %d %s\n", i + 1, int(i / 2), int(i / 2) * 16843009, 44 + i % 2, rest
        printf "verdict %d: taken %d\n", i + 1, int(i / 2)
    }
    for (i = 0; i < 600; i++) {
        printf "packet %d: pt 0 seq 5 ts 0 ssrc %d %s\n", i + 513, i % 300 * 65537, rest
        printf "verdict %d: %s\n", i + 513, i < 300 ? "taken 5" : "refused"
    }
}' >"$scratch/bytes.expected"
compare() {
    # by_hand.lines has what no capture has: padding, sources, no extension, a replay, a rollover, no packet, zeros
    # as values, an empty text, a URI without a kind, CR LF.
    for lines in captures/*.lines bindings/test/by_hand.lines; do
        "$@" <"$lines" | cmp - "${lines%.lines}.expected" >&2 || fail "$*, $lines"
    done
    for it in spelled greatest bytes; do
        "$@" <"$scratch/$it.lines" | cmp - "$scratch/$it.expected" >&2 || fail "$*, $it"
    done
    # 65,536 bytes
    echo 'packet 1: pt 0 seq 1 ts 1 ssrc 44 marker no padding no extension no csrc 0 header 12' >"$scratch/long"
    echo 'verdict 1: taken 1' >>"$scratch/long"
    printf '80000001000000010000002C%0131048d\n' 0 | "$@" | cmp - "$scratch/long" >&2 || fail "$*, a long line"
    printf '80000001000000010000002C%0999976d' 0 | "$@" | cmp - "$scratch/long" >&2 || fail "$*, a longer line without an end"
    "$@" <"$scratch/flags.lines" | cmp - "$scratch/flags.expected" >&2 || fail "$*, the flags"
    for bad in "${bad_hex[@]}" "${bad_maps[@]}"; do is_bad first "$bad" "$@"; done
    for bad in "${bad_uris[@]}"; do is_bad_uri "$bad" "$@"; done
    for bad in "${bad_hex[@]}" 'map 3 urn:x'; do is_bad second "80\n$bad" "$@"; done
    printf '80000001000000010000002C%0131048d\r\n' 0 | "$@" | cmp - "$scratch/long" >&2 || fail "$*, a long line, CR LF"
    # One to three digits, and a URI is the rest of the line, with characters of one to four bytes.
    for good in 'map 3 urn:x' 'map 03 urn:x' 'map 003 urn:x' 'map 255 urn:x y' 'map 7  ' 'map 3 \x00' \
        'map 3 \x7f\xc2\x80' 'map 3 \xdf\xbf\xe0\xa0\x80' 'map 3 \xed\x9f\xbf\xee\x80\x80' \
        'map 3 \xef\xbf\xbf\xf0\x90\x80\x80' 'map 3 \xf4\x8f\xbf\xbfx'; do
        printf '%b\n80\n' "$good" | "$@" | cmp - <(head -n 2 "$scratch/second") >&2 || fail "$*, the line $good"
    done
    is_bad_at_the_end "$@"
    is_bad later 'map 3 urn:x\n8G' "$@"
    tells_a_full_device 80 "$@"
    tells_a_full_device_of_a_bad_line "$@"
    far | "$@" | tail -n 1 >"$scratch/said"
    echo 'verdict 196609: taken 4294967296' | cmp - "$scratch/said" >&2 || fail "$*, a number past 2^32"
    # A carriage return or a zero byte within a URI is a part of it: no kind is known, and the mid isn't told.
    for it in '\r' '\x00'; do
        printf '%b\n' "map 1 urn:ietf:params:rtp-hdrext:sdes:mid${it}x" 90000001000000010000002CBEDE000110410000 | "$@" |
            head -n 1 >"$scratch/said"
        echo 'packet 1: pt 0 seq 1 ts 1 ssrc 44 marker no padding no extension yes csrc 0 header 20' |
            cmp - "$scratch/said" >&2 || fail "$*, a URI with $it"
    done
    [ -z "$("$@" </dev/null)" ] || fail "$*, no line"
    reads_a_folder "$@"
    [ ! -s "$scratch/said" ] || fail "$*, what is said of a folder"
}
for program in "$folder"/lines_*; do
    [ ! -e "$program" ] || compare "${emulator[@]}" "$program"
done

if [ -e "$folder/receive" ]; then
    # 5 with the rollover count 1 is 65,541. Of the sixth packet's six bytes three are padding. Two numbers in a row
    # outside of the stream are one of a sender that has started again, whose rollover count is 2 more: 3 * 65,536 + 40,001.
    refused='a replay, too old, or not of the stream yet'
    printf '%s\n' '65541: -10 dB, 2 bytes' "$refused" 'fewer than twelve bytes' 'a packet of RTCP' '65542: -11 dB, 3 bytes' "$refused" \
        'the sender has started again' '236609: -10 dB, 2 bytes' '236610: -10 dB, 2 bytes' >"$scratch/expected"
    "$folder/receive" | diff "$scratch/expected" - >&2 || fail receive
fi
if [ -e "$folder/receive_rust" ]; then
    # 65,536 and 5: the first packet has the rollover count 1. The third one is no packet, and the fourth a report.
    printf '%s\n' '65541: Some(-10) dB, [1, 2]' 'fewer than twelve bytes' 'a packet of RTCP' >"$scratch/expected"
    "$folder/receive_rust" | diff "$scratch/expected" - >&2 || fail receive_rust
fi

lowercase=$(printf %02x {0..255})
uppercase=$(printf %02X {0..255})
forwards() {
    # SSRC 44 -> 77; 47,000 - 46,000 = 1,000; at 5 s the send time is 5 * 2^18 = 0x140000, and 40 ms later
    # 1,321,205 = 0x1428F5; its id 4 becomes 2, and the mid (id 3) becomes padding. The second packet says no send
    # time, the third line is no packet, and the fourth a receiver report.
    printf '%s\n' 9021B798000027100000002CBEDE000242AABBCC303100000102 9021B799000027110000002CBEDE0001303100000304 80 \
        81C900070000002C0000002D0000000000000000000000000000000000000000 9021B79A000027110000002CBEDE000142AABBCC05 |
        "$folder/forward" 77 -46000 5 >"$scratch/forwarded"
    printf '%s\n' 902103E8000027100000004DBEDE000222140000000000000102 902103E9000027110000004DBEDE0001000000000304 \
        902103EA000027110000004DBEDE0001221428F505 >"$scratch/expected"
    diff "$scratch/expected" "$scratch/forwarded" >&2 || fail 'the forwarder'
    # 65,530 + 70,000 = 2 * 65,536 + 4,458 (0x116A), and 1 and 255 become 4,465 and 4,719; 6,400,000,063 s are 63 s
    # modulo 64, and 63.02 s are 16,520,314.9 units of 2^-18 s: 0xFC147A. P, M, X, the source, the application bits and
    # the payload stay; the ids 2 and 1 mean nothing to the publisher. The second to the eleventh line are no packets.
    printf '%b\n' 80000001000000010000002C 80000001000000010000002C0 80000001000000010000002CGG \
        '80000001000000010000002C\rGG' '80000001000000010000002C\r\r' '80000001000000010000002C\x00' \
        '80000001000000010000002C\x00GG' '80000001000000010000002C\x00\n' '\x00' '' \
        B1E0FFFAABCDEF0112345678000000091002000304030102030202AABB0101FF4142434445464748494A000003\\r \
        800000ff000000000000002c |
        "$folder/forward" 4294967290 70000 6400000063 >"$scratch/forwarded"
    printf '%s\n' 8000117100000001FFFFFFFA \
        B1E0116AABCDEF01FFFFFFFA00000009100200030203FC147A000000000000004142434445464748494A000003 \
        8000126F00000000FFFFFFFA >"$scratch/expected"
    diff "$scratch/expected" "$scratch/forwarded" >&2 || fail 'the forwarder, near the ends'
    for end in '\n' '\r\n' ''; do
        printf "80000001000000010000002C%0131048d$end" 0 | "$folder/forward" 4294967290 70000 5 >"$scratch/forwarded"
        printf '8000117100000001FFFFFFFA%0131048d\n' 0 | cmp - "$scratch/forwarded" >&2 || fail "the forwarder, a long line, $end"
    done
    # Each is a decimal number, also with zeros before it: 77 is 0x4D, and 10 s are 0x280000. Of each packet that goes on
    # the time is 20 ms (5,242.88 units, 0x147A) later: also of one with a send time of another length, and of one whose
    # block has another form, which both stay. One that is cut short goes nowhere.
    printf '%s\n' 90000001000000010000002CBEDE000142AABBCC 90000001000000010000002CBEDE000243AABBCCDD000000 \
        90000001000000010000002CBEDE000242AABBCC \
        90000001000000010000002CABAC000142AABBCC 90000001000000010000002CBEDE000142AABBCC | "$folder/forward" 0077 010 010 >"$scratch/forwarded"
    printf '%s\n' 9000000B000000010000004DBEDE000122280000 9000000B000000010000004DBEDE000223AABBCCDD000000 \
        9000000B000000010000004DABAC000142AABBCC 9000000B000000010000004DBEDE000122283D70 |
        diff - "$scratch/forwarded" >&2 || fail 'the forwarder, numbers with zeros'
    # A URI that the library doesn't know has a number in both maps: its id 6 becomes 5. P and the padding stay.
    printf '%s\n' B0000001000000010000002CBEDE00026165663130000000090003 | "$folder/forward" 77 0 5 >"$scratch/forwarded"
    echo B0000001000000010000004DBEDE00025165660000000000090003 | cmp - "$scratch/forwarded" >&2 || fail 'the forwarder, a URI of its own'
    # Of forty elements, each of one byte, those of the ids 3 and 7 to 14 become padding.
    elements=$(for ((i = 0; i < 40; i++)); do printf '%X0%02X' $((i % 14 + 1)) $i; done)
    wanted=$(for ((i = 0; i < 40; i++)); do
        case $((i % 14 + 1)) in 4) printf '20%02X' $i ;; 6) printf '50%02X' $i ;; *) printf 0000 ;; esac
    done)
    echo "90000001000000010000002CBEDE0014${elements}AB" | "$folder/forward" 77 0 5 >"$scratch/forwarded"
    echo "90000001000000010000004DBEDE0014${wanted}AB" | cmp - "$scratch/forwarded" >&2 || fail 'the forwarder, forty elements'
    # Each byte.
    printf '%s' 80000001000000010000002C "$lowercase" "$uppercase" | "$folder/forward" 44 0 0 >"$scratch/forwarded"
    echo "80000001000000010000002C$uppercase$uppercase" | cmp - "$scratch/forwarded" >&2 || fail 'the forwarder, each byte'
    # The last line needs no line feed.
    printf 80000001000000010000002C | "$folder/forward" 77 0 0 >"$scratch/forwarded"
    echo 80000001000000010000004D | cmp - "$scratch/forwarded" >&2 || fail 'the forwarder, a line without an end'
    tells_a_full_device 80000001000000010000002C "$folder/forward" 77 0 0
    [ -z "$("$folder/forward" 77 0 0 </dev/null)" ] || fail 'the forwarder, no line'
    reads_a_folder "$folder/forward" 77 0 0
    for given in '' 77 '77 0' '77 0 0 0'; do
        status=0
        # shellcheck disable=SC2086
        echo 80000001000000010000002C | "$folder/forward" $given >"$scratch/forwarded" || status=$?
        [ $status -eq 2 ] && [ ! -s "$scratch/forwarded" ] || fail "the forwarder with the arguments '$given'"
    done
}
[ ! -e "$folder/forward" ] || forwards

# The SFU, in C and in Rust: what three receivers get of a packet with a mid of one character, a transport number and
# a level (ids 1 to 3), which comes twice; of one with padding, a contributing source and no block; of one that jumps
# ahead, after which another comes too late; and of a camera's, whose block of another form stays. Between them a
# receiver report, and a datagram that is no packet. The first receiver gets the numbers as they are, the second one
# plus 40,000, the third one less 1; the datagrams come 20 ms apart, so that the send times are 0, 60 ms (15,728 =
# 0x3D70) and 100 ms (26,214 = 0x6666).
second=7365636F6E645F666C6F6F725F63616D6572615F # second_floor_camera_
alice=63616D6572615F6F665F616C696365            # camera_of_alice
printf '%s\n' 'map 1 urn:ietf:params:rtp-hdrext:sdes:mid' \
    'map 2 http://www.ietf.org/id/draft-holmer-rmcat-transport-wide-cc-extensions-01' \
    'map 3 urn:ietf:params:rtp-hdrext:ssrc-audio-level' 906F0005000000A00000002CBEDE00021061210007308A000102 \
    906F0005000000A00000002CBEDE00021061210007308A000102 80C900010000002C \
    A1EFFFFF000000010000002D00000009AABB0002 80 806F00CD000000A00000002C 806F0006000000A00000002C \
    90E000CE00015F900000002CABAC0003E58B3C4080000000E0070000414243 >"$scratch/sfu.lines"
cat >"$scratch/sfu.expected" <<END
1 906F0005000000A0000003E8BEDE0003216D30510000908A720000000102
2 906F9C45000000A0000007D0100000091415${second}30C802000001018AFF03000000000102
3 906F0004000000A000000BB8BEDE0006EF${alice}30110000320000000102
1 91EFFFFF00000001000003E900000009BEDE0003216D3151000172003D700000AABB
2 91EF9C3F00000001000007D100000009100000081415${second}31C8020001FF03003D70AABB
3 91EFFFFE0000000100000BB900000009BEDE0006EF${alice}3111000132003D70AABB
1 906F00CD000000A0000003E8BEDE0003216D30510002720066660000
2 906F9D0D000000A0000007D0100000081415${second}30C8020002FF03006666
3 906F00CC000000A000000BB8BEDE0006EF${alice}3011000232006666
1 90E000CE00015F90000003E8ABAC0003E58B3C4080000000E0070000414243
2 90E09D0E00015F90000007D0ABAC0003E58B3C4080000000E0070000414243
3 90E000CD00015F9000000BB8ABAC0003E58B3C4080000000E0070000414243
taken 4 replays 1 late 1 rtcp 1 unreadable 1 strangers 0 sent 12 unsent 0
END
# Of the numbers up to the highest one, 205, that 127 below it (78) is taken once, and that 128 below it is too late.
printf '806F%s000000A00000002C\n' 00CD 004E 004E 004D >"$scratch/window.lines"
# The second goes 20 ms after the first: 5,242.88 units of 2^-18 seconds (0x147A).
printf '%s\n' 1\ 906F00CD000000A0000003E8BEDE0003216D30510000720000000000 \
    1\ 906F004E000000A0000003E8BEDE0003216D305100017200147A0000 >"$scratch/window.expected"
echo 'taken 2 replays 1 late 1 rtcp 0 unreadable 0 strangers 0 sent 6 unsent 0' >>"$scratch/window.expected"
# One source more than there is room for. Then a header of 2,048 bytes, which is as much as is sent on, and the padding
# of its block goes; of four more, and of eight more.
for i in {1..17}; do printf '9021B7980000271000000%03XBEDE000132000000\n' "$i"; done >"$scratch/full.lines"
printf '9021B7990000271000000001100001FC%04064d\n9021B79A0000271000000001100001FD%04072d\n' 0 0 >>"$scratch/full.lines"
printf '9021B79B0000271000000001100001FE%04080d\n' 0 >>"$scratch/full.lines"
echo 'taken 19 replays 0 late 0 rtcp 0 unreadable 0 strangers 1 sent 51 unsent 6' >"$scratch/full.expected"
# One from before the first has a number too, and shuts out none after it.
printf '806F%s000000A00000002C\n' 0005 FFFF 0006 >"$scratch/before.lines"
echo 'taken 3 replays 0 late 0 rtcp 0 unreadable 0 strangers 0 sent 9 unsent 0' >"$scratch/before.expected"
# One datagram more than a transport has numbers, 20 ms apart. The last one has the 16 bits of the first: 0, and with
# what is added 40,000 (0x9C40) and 65,535. It goes after 1,310.72 s, which modulo 64 s are 30.72 s, and so
# 8,053,063.68 units of 2^-18 s (0x7AE147). Its transport number, 65,536, is 0 too.
numbered() { printf '806F%04X000000A00000002C\n' "$@"; }
cat >"$scratch/many.expected" <<END
1 906F0000000000A0000003E8BEDE0003216D30510000727AE1470000
2 906F9C40000000A0000007D0100000081415${second}30C8020000FF037AE147
3 906FFFFF000000A000000BB8BEDE0006EF${alice}30110000327AE147
taken 65537 replays 0 late 0 rtcp 0 unreadable 0 strangers 0 sent 196611 unsent 0
END
# The 2,101st goes at 42 s, which are 11,010,048 units (0xA80000), with the transport number 2,100 (0x834).
echo 1\ 906F0834000000A0000003E8BEDE0003216D3051083472A800000000 >"$scratch/later.expected"
# Each is counted as what it is: 128 below the highest number is too late.
printf '%s\n' 806F00CD000000A00000002C{,,} 806F004D000000A00000002C{,,} 80C900010000002C{,,,} 80{,,,,} >"$scratch/counted.lines"
echo 'taken 1 replays 2 late 3 rtcp 4 unreadable 5 strangers 0 sent 3 unsent 0' >"$scratch/counted.expected"
# The block becomes a two-byte one also where the sender has all ids.
{
    printf 'map %s urn:ietf:params:rtp-hdrext:ssrc-audio-level\n' {1..255}
    echo 906F0005000000A00000002CBEDE0001F0000000
} >"$scratch/all.lines"
echo "2 906F9C45000000A0000007D0100000081415${second}30C8020000FF03000000" >"$scratch/all.expected"
# 119 levels of 16 bytes and one of 4 fill a block of 2,032 bytes up to 4: the first receiver's mid has room there, and
# the number of its transport hasn't, which is used up; the ids of the second one need more, and the third one has no
# levels. Then one that is sent to all: the first receiver gets the number 1, 20 ms later.
{
    echo 'map 3 urn:ietf:params:rtp-hdrext:ssrc-audio-level'
    printf '906F0001000000A00000002CBEDE01FC'
    awk 'BEGIN { for (i = 0; i < 119; i++) printf "3F%032d", 0 }'
    printf '33000000000000000000\n806F0002000000A00000002C\n'
} >"$scratch/unsent.lines"
echo 1\ 906F0002000000A0000003E8BEDE0003216D305100017200147A0000 >"$scratch/unsent.expected"
echo 'taken 2 replays 0 late 0 rtcp 0 unreadable 0 strangers 0 sent 4 unsent 2' >>"$scratch/unsent.expected"
# The level of the sender's id 10 goes on under the first receiver's id 9; an element of the id 8 or 9 doesn't. That of
# 255 does in the two-byte form, 20 ms later.
printf '%s\n' "map 9 $audio_level" "map 010 $audio_level" 'map 08 urn:x' 'map 099 urn:x' 'map 09 urn:x' \
    "map 255 $audio_level" 'map 127 urn:x' 90000001000000010000002CBEDE0002A08A808B908C0000 \
    90000002000000010000002C10000001FF018A00 >"$scratch/spelled.lines"
printf '%s\n' 1\ 9000000100000001000003E8BEDE0003908A216D3051000072000000 \
    1\ 9000000200000001000003E81000000409018A02026D3005020001070300147A >"$scratch/spelled.expected"
# A camera's block of another form stays, and uses up no number of the transport: the next packet has the first one.
printf '%s\n' 90E000CE00015F900000002CABAC0001E58B3C40 806F00CF000000A00000002C >"$scratch/camera.lines"
printf '%s\n' 1\ 90E000CE00015F90000003E8ABAC0001E58B3C40 \
    1\ 906F00CF000000A0000003E8BEDE0003216D305100007200147A0000 >"$scratch/camera.expected"
# A URI that the library doesn't know has a number in the maps of the sender and of two receivers: its id 6 becomes the
# first one's 12, and goes nowhere at the third one, which hasn't agreed to it. Another URI, as long, has another number.
# The second packet goes on without its padding; 20 ms are 5,242.88 units (0x147A).
printf '%s\n' 'map 6 urn:example:seat' 'map 7 urn:example:door' 90000001000000010000002CBEDE000261AABB71CCDD000009 \
    B0000002000000010000002CBEDE000161AABB00090002 >"$scratch/own.lines"
printf '%s\n' 1\ 9000000100000001000003E8BEDE0004C1AABB216D305100007200000000000009 \
    1\ 9000000200000001000003E8BEDE0004C1AABB216D305100017200147A00000009 >"$scratch/own.expected"
if [ -e "$folder/sfu_c" ]; then
    "$folder/sfu_c" <"$scratch/own.lines" >"$scratch/said"
    grep '^1 ' "$scratch/said" | diff "$scratch/own.expected" - >&2 || fail 'the SFU, a URI of its own'
    [ "$(grep -c '^2 .*FE02AABB' "$scratch/said")" = 2 ] || fail 'the SFU, a URI of its own in the two-byte form'
    ! grep -q '^3 .*AABB' "$scratch/said" || fail 'the SFU, a URI that a receiver has not agreed to'
    # As many URIs as ids: the last of them have no number, and are no fault.
    for ((id = 1; id < 256; id++)); do echo "map $id urn:example:$id"; done >"$scratch/uris.lines"
    echo 80000001000000010000002C >>"$scratch/uris.lines"
    "$folder/sfu_c" <"$scratch/uris.lines" | tail -n 1 >"$scratch/said"
    echo 'taken 1 replays 0 late 0 rtcp 0 unreadable 0 strangers 0 sent 3 unsent 0' | cmp - "$scratch/said" >&2 || fail 'the SFU, many URIs'
fi
# No bytes are no packet. The last line needs no line feed, and each byte of a payload stays.
printf '\n\r\n\n80000001000000010000002C%s%s' "$lowercase" "$uppercase" >"$scratch/payload.lines"
# 60 ms are 15,728.64 units (0x3D70).
echo "1 9000000100000001000003E8BEDE0003216D3051000072003D700000$uppercase$uppercase" >"$scratch/payload.expected"
# Sources differ in any of their bits, and each sends a packet twice.
printf '80000005000000A0%s\n' {00000001,00000101,00010001,01000001,80000001,7FFFFFFF,FFFFFFFF,00000000}{,} >"$scratch/sources.lines"
echo 'taken 8 replays 8 late 0 rtcp 0 unreadable 0 strangers 0 sent 24 unsent 0' >"$scratch/sources.expected"
# The 214,750th datagram goes at 4,294.98 s, which are 2^32 microseconds and 12,704 more: modulo 64 s 6.98 s, which are
# 1,829,765.12 units (0x1BEB85).
hour() { awk 'BEGIN { for (i = 0; i < 214749; i++) print "80"; print "80000001000000010000002C" }'; }
echo 1\ 9000000100000001000003E8BEDE0003216D30510000721BEB850000 >"$scratch/hour.expected"
sends_on() {
    for it in spelled camera payload; do
        "$@" <"$scratch/$it.lines" | grep '^1 ' | diff "$scratch/$it.expected" - >&2 || fail "$*, what is sent on, $it"
    done
    hour | "$@" | grep '^1 ' | diff "$scratch/hour.expected" - >&2 || fail "$*, what is sent on, hour"
    "$@" <"$scratch/payload.lines" | tail -n 1 >"$scratch/said"
    echo 'taken 1 replays 0 late 0 rtcp 0 unreadable 3 strangers 0 sent 3 unsent 0' | cmp - "$scratch/said" >&2 ||
        fail "$*, what is counted, payload"
    for none in '' 'map 3 urn:x\n'; do
        # shellcheck disable=SC2059
        printf "$none" | "$@" >"$scratch/said"
        echo 'taken 0 replays 0 late 0 rtcp 0 unreadable 0 strangers 0 sent 0 unsent 0' | cmp - "$scratch/said" >&2 ||
            fail "$*, no datagram"
    done
    reads_a_folder "$@"
    "$@" <"$scratch/sfu.lines" | diff "$scratch/sfu.expected" - >&2 || fail "$*, what is sent on"
    "$@" <"$scratch/window.lines" | grep -v '^[23] ' | diff "$scratch/window.expected" - >&2 || fail "$*, the window"
    for it in full before counted sources; do
        "$@" <"$scratch/$it.lines" | tail -n 1 | diff "$scratch/$it.expected" - >&2 || fail "$*, what is counted, $it"
    done
    "$@" <"$scratch/all.lines" | grep '^2 ' | diff "$scratch/all.expected" - >&2 || fail "$*, a sender with all ids"
    "$@" <"$scratch/unsent.lines" | grep -v '^[23] ' | cmp "$scratch/unsent.expected" - >&2 || fail "$*, one that isn't sent"
    # The mids of the sixteen streams end in their hexadecimal digits.
    "$@" <"$scratch/full.lines" | sed -n 's/^1 .\{24\}BEDE0003216D\(..\).*/\1/p' | diff <(printf '%s\n' 3{0..9} 4{1..6}) - >&2 ||
        fail "$*, the digits of the streams"
    # 65,536 bytes, of which each receiver gets the payload.
    printf '1 9000000100000001000003E8BEDE0003216D30510000720000000000%0131048d\n' 0 >"$scratch/long"
    for end in '\n' '\r\n' ''; do
        printf "80000001000000010000002C%0131048d$end" 0 | "$@" | grep -v '^[23] ' >"$scratch/said"
        { cat "$scratch/long"; echo 'taken 1 replays 0 late 0 rtcp 0 unreadable 0 strangers 0 sent 3 unsent 0'; } |
            cmp - "$scratch/said" >&2 || fail "$*, a long line, $end"
    done
    # A map line behind a datagram.
    is_bad later '80\nmap 3 urn:x' "$@"
    is_bad later 'map 3 urn:x\n8G' "$@"
    tells_a_full_device 80 "$@"
    tells_a_full_device_of_a_bad_line "$@"
    for bad in "${bad_hex[@]}" "${bad_maps[@]}"; do is_bad first "$bad" "$@"; done
    for bad in "${bad_uris[@]}"; do is_bad_uri "$bad" "$@"; done
    is_bad_at_the_end "$@"
    numbered {0..65535} 0 | "$@" | tail -n 4 | diff "$scratch/many.expected" - >&2 || fail "$*, many datagrams"
    numbered {0..2100} | "$@" | grep '^1 906F0834' | diff "$scratch/later.expected" - >&2 || fail "$*, after 42 s"
    # All print the same.
    for lines in captures/*.lines bindings/test/by_hand.lines "$scratch/full.lines"; do
        "$@" <"$lines" >"$scratch/said"
        [ -e "$scratch/${lines##*/}.all" ] || cp "$scratch/said" "$scratch/${lines##*/}.all"
        cmp "$scratch/said" "$scratch/${lines##*/}.all" >&2 || fail "$*, $lines"
    done
}
for program in "$folder"/sfu_*; do
    [ ! -e "$program" ] || sends_on "$program"
done
if [ -e "$folder/ends" ]; then "$folder/ends" >&2 || fail 'the SFU at the ends of its room'; fi
if [ -e "$folder/many" ]; then "$folder/many" >&2 || fail 'the SFU with many datagrams'; fi
# It has no memory of its own that threads would share: no data that are written.
if [ -e "$folder/sfu.o" ]; then
    nm "$folder/sfu.o" >"$scratch/symbols"
    ! grep -E ' [BbCDdGgSs] ' "$scratch/symbols" >&2 || fail 'the SFU has memory of its own'
fi
# Taken twice, with numbers that are higher by 1,000 the second time: twice as much of everything.
if [ -e "$folder/sfu_c" ]; then
    bytes=$(awk 'NF == 2 { bytes += length($2) } END { print bytes }' "$scratch/sfu.expected")
    "$folder/sfu_c" 2 <"$scratch/sfu.lines" | sed 's/receivers, .*/receivers/' >"$scratch/said"
    printf '%s\n' "16 datagrams, $bytes bytes to receivers" \
        'taken 8 replays 2 late 2 rtcp 2 unreadable 2 strangers 0 sent 24 unsent 0' | diff - "$scratch/said" >&2 ||
        fail 'the SFU, twice'
    printf '806F%s000000A00000002C\n' 0005 0069 000F | "$folder/sfu_c" 2 | tail -n 1 >"$scratch/said"
    echo 'taken 6 replays 0 late 0 rtcp 0 unreadable 0 strangers 0 sent 18 unsent 0' | diff - "$scratch/said" >&2 ||
        fail 'the SFU, twice with higher numbers'
    # Once again is as much as without a number, also of headers of 2,048 bytes.
    for it in unsent full payload; do
        bytes=$("$folder/sfu_c" <"$scratch/$it.lines" | awk 'NF == 2 { bytes += length($2) / 2 } END { print bytes }')
        "$folder/sfu_c" 1 <"$scratch/$it.lines" | grep -q " datagrams, $bytes bytes to receivers" || fail "the SFU, once, $it"
    done
    # A payload of 70,000 bytes, behind headers of 28, 48 and 40 bytes.
    printf '80000001000000010000002C%0140000d\n' 0 | "$folder/sfu_c" 1 | sed 's/receivers, .*/receivers/' >"$scratch/said"
    printf '%s\n' '1 datagrams, 210116 bytes to receivers' \
        'taken 1 replays 0 late 0 rtcp 0 unreadable 0 strangers 0 sent 3 unsent 0' | diff - "$scratch/said" >&2 ||
        fail 'the SFU, once, a long payload'
    # 1,000 is the highest number the second time: 127 below 1,127, 128 below 1,128, and taken where it came itself. After
    # 65,535 comes 999, and ten times is a decimal number.
    again() { # the numbers, how often, what is counted
        # shellcheck disable=SC2086
        numbered $1 | "$folder/sfu_c" "$2" >"$scratch/took"
        echo "$3 rtcp 0 unreadable 0 strangers 0" | cmp - <(tail -n 1 "$scratch/took" | sed 's/ sent.*//') >&2 ||
            fail "the SFU, the numbers $1, $2 times"
    }
    again '0 1127' 2 'taken 4 replays 0 late 0'
    again '0 1128' 2 'taken 3 replays 0 late 1'
    again '0 1000' 2 'taken 3 replays 1 late 0'
    again 65535 3 'taken 3 replays 0 late 0'
    again 65535 010 'taken 10 replays 0 late 0'
    # Not once again is as it is without a number.
    "$folder/sfu_c" 0 <"$scratch/sfu.lines" | diff "$scratch/sfu.expected" - >&2 || fail 'the SFU, not again'
    # 1,000 datagrams are taken again, and not one more. Of each the receivers get 28, 48 and 40 bytes. A million takes
    # less than ten thousand seconds.
    numbered {0..999} >"$scratch/thousand.lines"
    "$folder/sfu_c" 1 <"$scratch/thousand.lines" >"$scratch/took"
    grep -qE ' receivers, [0-9]{1,4}\.[0-9]{2} seconds of ' "$scratch/took" || fail 'the SFU, the time that it took'
    sed <"$scratch/took" 's/receivers, .*/receivers/' >"$scratch/said"
    printf '%s\n' '1000 datagrams, 116000 bytes to receivers' \
        'taken 1000 replays 0 late 0 rtcp 0 unreadable 0 strangers 0 sent 3000 unsent 0' | diff - "$scratch/said" >&2 ||
        fail 'the SFU, 1,000 datagrams again'
    # Taken 200 times they take a fifth of what a million does: at most what the process took, and at least half of it.
    TIMEFORMAT='%U %S'
    { time "$folder/sfu_c" 200 <"$scratch/thousand.lines" >"$scratch/took"; } 2>"$scratch/took_all"
    sed -n 's/.* receivers, \(.*\) seconds of .*/\1/p' "$scratch/took" | cat - "$scratch/took_all" |
        awk 'NR == 1 { it = $1 / 5 } NR == 2 { all = $1 + $2 } END { exit !(it <= all + 0.02 && it >= all / 2 - 0.02) }' ||
        fail "the SFU, the time that it took 200 times: $(cat "$scratch/took" "$scratch/took_all")"
    # Reading the lines isn't counted: of 40,000 bytes each that takes nearly all of what the process took.
    awk 'BEGIN { for (i = 0; i < 100; i++) printf "8000%04X000000000000002C%079976d\n", i, 0 }' >"$scratch/reading.lines"
    { time "$folder/sfu_c" 1 <"$scratch/reading.lines" >"$scratch/took"; } 2>"$scratch/took_all"
    sed -n 's/.* receivers, \(.*\) seconds of .*/\1/p' "$scratch/took" | cat - "$scratch/took_all" |
        awk 'NR == 1 { it = $1 / 10000 } NR == 2 { all = $1 + $2 } END { exit !(it <= all / 4) }' ||
        fail "the SFU, the time of long lines: $(cat "$scratch/took" "$scratch/took_all")"
    status=0
    numbered {0..1000} | "$folder/sfu_c" 1 >"$scratch/said" || status=$?
    [ $status -eq 3 ] && [ ! -s "$scratch/said" ] || fail 'the SFU, 1,001 datagrams again'
fi
# What goes over sockets, on 127.0.0.1.
if [ -e "$folder/sockets" ]; then
    "$folder/udp" "$folder/sockets" >&2 || fail 'the SFU with sockets'
    ends_at_once() { # its ports; its input is a file
        local status=0
        "$folder/sockets" "$@" >"$scratch/said" || status=$?
        [ $status -eq 2 ] && [ ! -s "$scratch/said" ] || fail "the SFU with sockets, $*"
    }
    # Without a line it ends as soon as its input has; a folder can't be read.
    "$folder/sockets" 1 2 3 </dev/null | sed 's/^port [1-9][0-9]*$/port/' >"$scratch/said"
    printf '%s\n' port 'taken 0 replays 0 late 0 rtcp 0 unreadable 0 strangers 0 sent 0 unsent 0' |
        diff - "$scratch/said" >&2 || fail 'the SFU with sockets, no line'
    reads_a_folder "$folder/sockets" 1 2 3
    for bad in "${bad_maps[@]}" "${bad_uris[@]}"; do ends_at_once 1 2 3 < <(printf '%b\n' "$bad"); done
    for ports in '' '1 2' '1 2 3 4'; do
        # shellcheck disable=SC2086
        ends_at_once $ports </dev/null
    done
fi

# STN panels: what the eye sees, one frame, an animated PNG; their registers, refusals, JSON and test cards.

# ---- a small grey panel: 16 by 2 pixels, the 16 levels from left to right and back, CLKVAL 2, WDLY 1, LINEBLANK 3, WLH 2

stn='245 4000 80103 2 8 18000000 8 4 0'
# A dump with nine words, HCLK and words of memory at 0x30000000, all in hexadecimal.
stn_dump() { # words, hclk, memory
    local number
    for number in $1 $2 30000000; do little "$number"; done
    head -c 512 /dev/zero
    for number in $3; do little "$number"; done
}
little() { printf "$(printf %08x "0x$1" | sed 's/\(..\)\(..\)\(..\)\(..\)/\\x\4\\x\3\\x\2\\x\1/')"; }
levels='01234567 89abcdef fedcba98 76543210'
stn_dump "$stn" f4240 "$levels" > grey.dump
# 32 by 2 pixels of mono
mono='241 4000 80303 2 8 18000000 4 2 0'
stn_dump "$mono" f4240 '80000001 12345678' > mono.dump

# Takes PNGs apart, animated ones too: `values FILE` prints each frame as a line of two hexadecimal digits a pixel (all must be grey),
# `average FILE` their average, `head FILE` what the chunks say. It stops where a chunk, a checksum, the order or a number is wrong.
cat > png.py <<'END_OF_PYTHON'
import struct, sys, zlib

def chunks(data):
    assert data[:8] == b"\x89PNG\r\n\x1a\n", "no PNG"
    at, found = 8, []
    while at < len(data):
        length, name = struct.unpack(">I4s", data[at:at + 8])
        body = data[at + 8:at + 8 + length]
        assert data[at + 8 + length:at + 12 + length] == struct.pack(">I", zlib.crc32(name + body)), f"the checksum of {name}"
        found.append((name.decode(), body))
        at += 12 + length
    return found

def frames(found):
    """The compressed data of each frame; of an animation in the order that it must have."""
    names = [name for name, _ in found]
    assert names[0] == "IHDR" and names[-1] == "IEND" and names.count("IEND") == 1, names
    if "acTL" not in names:
        return [b"".join(body for name, body in found if name == "IDAT")], []
    assert names[1] == "acTL" and names[2] == "fcTL" and names[3] == "IDAT", names[:4]
    data, controls, sequence = [], [], 0
    for name, body in found[2:-1]:
        if name in ("fcTL", "fdAT"):
            assert struct.unpack(">I", body[:4])[0] == sequence, f"sequence number {sequence}"
            sequence += 1
        if name == "fcTL":
            assert not data or data[-1], "a frame without data"
            controls.append(struct.unpack(">IIIIHHBB", body[4:]))
            data.append(b"")
        else:
            assert name == ("IDAT" if len(data) == 1 else "fdAT"), (name, len(data))
            data[-1] += body if name == "IDAT" else body[4:]
    assert struct.unpack(">II", found[1][1]) == (len(data), 0), "frames in acTL"
    return data, controls

def predicted(how, left, above, corner):
    if how == 4:
        return min((abs(above - corner), 0, left), (abs(left - corner), 1, above), (abs(left + above - 2 * corner), 2, corner))[2]
    return (0, left, above, (left + above) // 2)[how]

def pixels(data, width, height, depth, step):
    size, lines = (width * depth * step + 7) // 8, zlib.decompress(data)
    assert len(lines) == height * (size + 1), "length of the data"
    above, values = bytes(size + step), []
    for r in range(height):
        how, row = lines[r * (size + 1)], bytearray(step) + lines[r * (size + 1) + 1:(r + 1) * (size + 1)]
        for i in range(step, len(row)):
            row[i] = (row[i] + predicted(how, row[i - step], above[i], above[i - step])) % 256
        above = row
        if depth == 1:
            values += [255 * (row[1 + c // 8] >> (7 - c % 8) & 1) for c in range(width)]
        else:
            assert all(row[i] == row[i + 1] == row[i + 2] for i in range(3, len(row), 3)), "a colour"
            values += row[3::3]
    return values

what, path = sys.argv[1:]
found = chunks(open(path, "rb").read())
width, height, depth, kind, *rest = struct.unpack(">IIBBBBB", found[0][1])
data, controls = frames(found)
assert (depth, kind, *rest) in ((1, 0, 0, 0, 0), (8, 2, 0, 0, 0)), (depth, kind, rest)
assert all(c[:4] == (width, height, 0, 0) and c[6:] == (0, 0) for c in controls), "a part of the picture"
if what == "head":
    print(width, "by", height, "of", depth, "frames", len(controls), "delays", sorted({f"{c[4]}/{c[5]}" for c in controls}))
    sys.exit()
drawn = [pixels(d, width, height, depth, 3 if kind == 2 else 1) for d in data]
if what == "values":
    print("\n".join(bytes(frame).hex() for frame in drawn))
if what == "average":  # of all frames
    print(bytes((2 * sum(pixel) + len(drawn)) // (2 * len(drawn)) for pixel in zip(*drawn)).hex())
END_OF_PYTHON
png() { python3 png.py "$@" 2>&1 | tail -n "${lines:-1}"; }

# What is due of frames of grey.dump, by the rule (docs/REFERENCE.md, §5.9), in whole numbers.
cat > due.py <<'END_OF_PYTHON'
import sys
duties = [(0, 1), (1, 7), (1, 5), (1, 4), (1, 3), (2, 5), (3, 7), (1, 2), (4, 7), (3, 5), (2, 3), (5, 7), (3, 4), (4, 5), (6, 7), (1, 1)]
level = lambda row, column: column if row == 0 else 15 - column
lit = lambda f, r, c: (f + r + c) * duties[level(r, c)][0] % duties[level(r, c)][1] < duties[level(r, c)][0]
for f in map(int, sys.argv[1:]):
    print("".join("ff" if lit(f, r, c) else "00" for r in range(2) for c in range(16)))
END_OF_PYTHON

# ---- what the eye sees: 255 x n / d, rounded

due='clocks 4 hclk 256 mhz 3906250'
gives 0 "$due" grey.dump -o eye.png
says '3.906 kHz by rule edition 1, 250.000 kHz clock of 8 pixels' 'the counts in plain units'
up=0024334055666d809299aab6bfccdbff
down=ffdbccbfb6aa9992806d665540332400
same "$(png values eye.png)" "$up$down" 'the 16 greys, level by level'
gives 0 "$due" grey.dump -o all.png --animate 420
same "$(png average all.png)" "$up$down" 'what the eye sees is the average of 420 frames'
gives 0 'clocks 8 hclk 272 mhz 3676470' mono.dump -o mono.png
# The bits of words from the highest down, each as 00 or ff.
bits() { python3 -c 'import sys; print(*("00 ff".split()[int(b)] for w in sys.argv[1:] for b in f"{int(w, 16):032b}"), sep="")' "$@"; }
same "$(png values mono.png)" "$(bits 80000001 12345678)" 'mono: bits from the left'
# BSWP: the word's bytes in their other order
stn_dump "${mono/ 8 18/ a 18}" f4240 '80000001 12345678' > swapped.dump
run swapped.dump -o swapped.png
same "$(png values swapped.png)" "$(bits 01000080 78563412)" 'mono with BSWP'
neighbours() { grep '^\(equal with\|not equal\|not drawn\)' out; }
run swapped.dump --compare mono.png
same "$status: $(neighbours)" '1: equal with BSWP 0' 'a neighbour of an STN panel'
run grey.dump --compare all.png
same "$status: $(neighbours)" '1: not equal with BSWP 1
not drawn with LCDBASEU 4 and LCDBASEL 12 (a row more): refused 8' 'no neighbours that mean nothing on STN'

# ---- one frame

for frame in 0 1 2 419 420 2147483647 4294967294 4294967295; do
    run grey.dump --frame $frame -o frame.png
    same "$status $(png values frame.png)" "0 $(python3 due.py $frame)" "frame $frame"
done
for frame in 0x0 0XFFFFFFFF 0x00000001a3; do
    run grey.dump --frame $frame -o frame.png
    same "$status $(png values frame.png)" "0 $(python3 due.py $((frame)))" "frame $frame"
done
run mono.dump --frame 9 --compare mono.png
same "$status: $(tail -n 2 out)" '0: compared: frame 9, not what the eye sees
equal: 64 pixels' 'all frames of mono are alike'
run mono.dump --compare mono.png
same "$status $(grep -c '^compared' out)" '0 0' 'what the eye sees is compared'
run grey.dump --frame 419 -o frame.png
gives 1 "$due" grey.dump --compare frame.png
gives 0 "$due" grey.dump --frame 839 --compare frame.png
gives 1 "$due" grey.dump --frame 420 --compare frame.png
says 'compared: frame 420, not what the eye sees' 'a frame that differs'

wrong() { # what, arguments
    local what=$1
    shift
    gives 2 "lcdshot: $what; see lcdshot --help" "$@"
}
for number in x -1 1.0 '' 1x ' 1'; do
    wrong "--frame: the number ${number:-''} is not a number" grey.dump --frame "$number" -o none.png
done
wrong '--frame: the number 4294967296 is above 4294967295' grey.dump --frame 4294967296 -o none.png
wrong '--frame: the number 0x100000000 is wider than 32 bits' grey.dump --frame 0x100000000 -o none.png
wrong '--frame: the number 0xg is not a hexadecimal number' grey.dump --frame 0xg -o none.png
wrong '--frame: the number 0x is not a hexadecimal number' grey.dump --frame 0x -o none.png
wrong '--frame: a number is missing' grey.dump -o none.png --frame
wrong '--frame: given twice' grey.dump --frame 1 --frame 1 -o none.png
wrong '--frame: -o or --compare is missing' grey.dump --frame 1
wrong '--frame: makes a picture; -o names a dump' grey.dump --frame 1 -o none.dump
wrong '--frame: for STN panels only; these words are a TFT panel'\''s (PNRMODE is 3)' "$td.dump" --frame 1 -o none.png
wrong '--frame: for STN panels only; these words are a TFT panel'\''s (PNRMODE is 3)' "$td.dump" --frame 1 --compare "$td.png" --json
wrong '--testcard: takes -o and --edition alone' --testcard 64 64 grey -o none.dump --frame 1
wrong '-o: takes one dump' grey.dump mono.dump --frame 1 -o none.png
same "$(files 'none*')" '' 'nothing is written where a call is wrong'

# ---- frames as an animated PNG

run grey.dump --animate 9 -o nine.png
same "$status $(sed -n 3p out)" '0 9 frames from number 0 on, 4/15625 s each by rule edition 1' 'what was written'
same "$(png head nine.png)" "16 by 2 of 1 frames 9 delays ['4/15625']" 'the chunks of nine frames'
same "$(lines=9 png values nine.png)" "$(python3 due.py 0 1 2 3 4 5 6 7 8)" 'nine frames'
run grey.dump --frame 4294967290 --animate 6 -o last.png
same "$status $(sed -n 3p out)" '0 6 frames from number 4294967290 on, 4/15625 s each by rule edition 1' \
    'the last frames that there are'
same "$(lines=6 png values last.png)" "$(python3 due.py $(seq 4294967290 4294967295))" 'the last six frames'
run grey.dump --animate 1 -o one.png
same "$status $(png head one.png) $(png values one.png)" "0 16 by 2 of 1 frames 1 delays ['4/15625'] $(python3 due.py 0)" 'one frame'
gives 0 "$due" grey.dump --frame 0 --compare nine.png
same "$(tail -n 1 out)" 'equal: 32 pixels' 'a program that knows no animation sees the first frame'
"$shot" grey.dump --animate 9 -o - 2> err > through.png
same "$(cmp through.png nine.png 2>&1)$(sed -n 3p err)" '9 frames from number 0 on, 4/15625 s each by rule edition 1' \
    'an animation to standard output'
run grey.dump --animate 1000 -o all.png
same "$status $(png head all.png)" "0 16 by 2 of 1 frames 1000 delays ['4/15625']" 'as many frames as there may be'
# a whole picture, of several chunks a frame: each frame is what --frame gives
run "$examples/stn320x240-grey.dump" --frame 7 --animate 3 -o three.png
same "$status $(png head three.png)" "0 320 by 240 of 1 frames 3 delays ['619/36972']" 'three frames of an example'
lines=3 png values three.png > values
for i in 1 2 3; do
    run "$examples/stn320x240-grey.dump" --frame $((6 + i)) -o frame.png
    same "$(sed -n ${i}p values | md5sum)" "$(png values frame.png | md5sum)" "frame $i of the example is that of --frame"
done

# how long a frame is shown: 256 ticks over HCLK, where 16 bits hold it
delay() { # hclk in hexadecimal, fraction due
    stn_dump "$stn" "$1" "$levels" > clock.dump
    run clock.dump --animate 2 -o clock.png
    same "$status $(png head clock.png)" "0 16 by 2 of 1 frames 2 delays ['$2']" "a frame's time at an HCLK of 0x$1"
}
delay 0 1/60
same "$(sed -n 3p out)" '2 frames from number 0 on, 1/60 s each, since there is no HCLK' 'no HCLK'
delay 1 256/1
delay 100 1/1
delay 3 256/3
delay ffffffff 1/65535
delay 1000000 1/65535
delay 64 64/25
# 1024 lines of 2048 clocks of 2046 ticks at 1 Hz are more than 65535 seconds
stn_dump '3ff41 ffc000 1fffff 3 8 18000000 100000 400 0' 1 '' > slow.dump
head -c 2097152 /dev/zero >> slow.dump
gives 0 'clocks 2097152 hclk 4293124096 mhz 0' slow.dump --animate 1 -o slow.png
same "$(sed -n 3p out)" '1 frame from number 0 on, 65535/1 s each by rule edition 1' 'a frame of more than 65535 seconds'
same "$(png head slow.png)" "16384 by 1024 of 1 frames 1 delays ['65535/1']" 'the largest panel'

for number in x -1 '' 0x10 1.0; do
    wrong "--animate: the number of frames ${number:-''} is not a number" grey.dump --animate "$number" -o none.png
done
wrong '--animate: the number of frames 0 is below 1' grey.dump --animate 0 -o none.png
wrong '--animate: the number of frames 00 is below 1' grey.dump --animate 00 -o none.png
wrong '--animate: the number of frames 1001 is above 1000' grey.dump --animate 1001 -o none.png
wrong '--animate: there is no frame above 4294967295' grey.dump --frame 4294967290 --animate 7 -o none.png
wrong '--animate: -o and a file are missing' grey.dump --animate 2
wrong '--animate: makes a picture; -o names a dump' grey.dump --animate 2 -o none.dump
wrong '--animate: not with --compare, which takes one picture' grey.dump --animate 2 -o none.png --compare eye.png
wrong '--animate: for STN panels only; these words are a TFT panel'\''s (PNRMODE is 3)' "$td.dump" --animate 2 -o none.png
wrong '--testcard: takes -o and --edition alone' --testcard 64 64 grey -o none.dump --animate 1
wrong '-o: words alone make no picture; --memory and --start are missing' --words $stn --animate 2 -o none.png
patch grey.dump 1 1 > refused.dump
gives 1 'refused 17' refused.dump --animate 2 -o none.png
head -c 9 grey.dump > short.dump
gives 1 'refused 14' short.dump --animate 2 -o none.png
gives 1 'refused 14' short.dump --frame 2 -o none.png
patch grey.dump 0 0x25 > other.dump
gives 1 'refused 2' other.dump --frame 2 -o none.png
cp grey.dump kept.png
gives 2 'lcdshot: ./kept.png: the same file as the input kept.png; nothing is written' kept.png --animate 2 -o ./kept.png
same "$(files 'none*')" '' 'nothing is written where there are no frames'

# ---- the account of the registers

run grey.dump --registers
same "$(sed -n '3,9p' out)" 'panel       16 by 2 pixels, STN, 4 bits a pixel, 16 greys
line        128 ticks: 2 clocks of 4, VLINE 64, delay 32, blank 24
frame       2 lines: 4 clocks, 256 ticks
HCLK        1000000 Hz
VCLK        250.000 kHz
line time   128.000 us
line rate   7.812 kHz' 'the panel of an STN dump'
same "$(grep -A 3 '^LCDCON3' out | sed 's/  */ /g')" 'LCDCON3 0x00080103
 WDLY 20..19 1 32 ticks from VLINE to VCLK by rule edition 1
 HOZVAL 18..8 1 16 pixels a row, the width: 2 clocks of 8
 LINEBLANK 7..0 3 24 ticks of blank time a line' 'WDLY and LINEBLANK'
same "$(grep -A 2 '^LCDCON4' out | sed 's/  */ /g')" 'LCDCON4 0x00000002
 MVAL 15..8 0 VM'\''s rate where MMODE is 1
 WLH 1..0 2 64 ticks of VLINE by rule edition 1' 'WLH'
same "$(tail -n 1 out)" 'TPAL 0x00000000  all reserved on STN' 'TPAL'
same "$(grep -c 'porch\|HSYNC\|VSYNC\|HBPD\|HFPD\|HSPW\|TPALEN\|palette\|(STN only)' out)" 0 'no word of what TFT alone has'
same "$(grep -c 'TFT only' out)" 8 'fields that mean something on TFT alone'
pulses() { # WDLY and WLH, ticks due
    run --words 245 4000 "$(printf %x $(($1 << 19 | 0x103)))" "$1" 8 18000000 8 4 0 --registers
    says "VLINE $2, delay $2, blank 24" "the pulses of $1"
}
pulses 0 16
pulses 1 32
pulses 2 64
pulses 3 128
run --words 3ff45 ffc000 1fffff 3 8 18000000 0 7fe 0 --hclk 4294967295 --registers
says 'line 4192504 ticks: 2048 clocks of 2046, VLINE 128, delay 128, blank 2040' 'the longest line'
says 'frame 1024 lines: 2097152 clocks, 4293124096 ticks' 'the longest frame'
says 'line time 976.143 us' 'its time'
run --words 245 0 3 0 8 18000000 2 2 0 --registers
says 'line 60 ticks: 1 clock of 4, VLINE 16, delay 16, blank 24' 'one clock'
says 'frame 1 line: 1 clock, 60 ticks' 'one line'
says 'HOZVAL 18..8 0 8 pixels a row, the width: 1 clock of 8' 'the least width'
says 'HCLK not given, no rates' 'no time without HCLK'
same "$(grep -c '^line time\|^VCLK' out)" 0 'no line of time'
run --words 2c5 4000 80103 602 8 18000000 8 4 0 --registers
says 'MMODE 7 1 VM toggles by MVAL' 'MMODE'
run --words 245 4000 80103 2 388 18000000 8 4 0 --registers
says 'INVVLINE 9 1 VLINE is 0 when active' 'INVVLINE'
says 'INVVFRAME 8 1 VFRAME is 0 when active' 'INVVFRAME'
says 'the glass gets the negative of this picture: INVVD is 1' 'INVVD on STN'

# ---- refusals, their arithmetic and what lifts them

refused() { # number, words, numbers listed
    local number=$1 words=$2 listed=$3
    stn_dump "$words" f4240 "$levels" > refused.dump
    gives 1 "refused $number" refused.dump --registers -o refused.png
    same "$(sed -n 's/^  refused \([0-9]*\) .*/\1/p' out | xargs)" "$listed" "all faults of $words"
    same "$(files 'refused.p*')" '' 'a refusal writes no picture'
}
refused 1 '245 4000 280103 2 8 18000000 8 4 0' 1
says "LCDCON3: reserved bit 21 is set (0x00200000); cleared, the word is 0x00080103; of HBPD's bits an STN panel (PNRMODE 2) has WDLY's alone" \
    'reserved bits of LCDCON3'
says 'lifted by clearing them, then accepted' 'clearing them'
says 'lifted by PNRMODE 3, then refused 3' 'another panel'
says 'PNRMODE 6..5 2 STN, 8-bit single scan <- refused 1; lifted by 3, then refused 3' 'the mark at PNRMODE'
says 'LCDCON3 0x00280103 <- refused 1; reserved bit 21 is set' 'the mark at LCDCON3'
says 'WDLY 20..19 1 32 ticks' 'WDLY beside reserved bits'
refused 1 '245 4000 80103 fe 8 18000000 8 4 0' 1
says "LCDCON4: reserved bits 7..2 are set (0x000000fc); cleared, the word is 0x00000002; of HSPW's bits an STN panel (PNRMODE 2) has WLH's alone" \
    'reserved bits of LCDCON4'
refused 1 '245 4000 80103 2 8 18000000 8 4 1000000' 1
says 'TPAL: reserved bit 24 is set (0x01000000); cleared, the word is 0x00000000; an STN panel (PNRMODE 2) has no temporary palette' \
    'reserved bits of TPAL'
refused 1 '245 4000 4080103 2 8 18000000 8 4 0' 1
same "$(grep -c 'an STN panel' out)" 0 'bits that are reserved on every panel'
# a TFT panel's words with PNRMODE 2: the panel is lifted, not the bits
td_with 459 14fc041 98ef09 9 b09 18000000 12c00 f0 0 > tft.dump
gives 1 'refused 1' tft.dump --registers
says 'lifted by clearing them, then refused 3' 'bits of a TFT panel cleared'
says 'lifted by PNRMODE 3, then accepted' 'a TFT panel with PNRMODE 2'
same "$(sed -n 2p out)" 'faults      1' 'no fault behind it'
td_with 459 14fc041 98ef09 9 b09 18000000 12c01 f0 0 > tft.dump
run tft.dump --registers
says 'judged with PNRMODE 3' 'the fault behind a wrong panel'
refused 2 '225 4000 80103 2 8 18000000 8 4 0' 2
says 'PNRMODE = 1, STN, 4-bit single scan' 'the arithmetic of 2'
says 'lifted by PNRMODE 2, then accepted' 'the STN panel that is taken'
says "panel 2 by 2 pixels by TFT's rules (as all below), no TFT mode" 'the rules that sizes of no panel go by'
run refused.dump grey.dump "$td.dump" short.dump
same "$(sed 's/  */ /g; s/^[^ ]*//' out)" " 2 by 2 no mode no rate refused 2 size by TFT's rules
 16 by 2 greys 3.906 kHz accepted rate by rule edition 1
 240 by 320 16 bits 109.553 Hz accepted
 refused 14" 'and in a line'
refused 2 '19 4000 80103 2 b09 18000000 4 2 0' 2
says "panel 2 by 2 pixels by TFT's rules (as all below), 16 bits a pixel" 'a mode of TFT with PNRMODE 0'
refused 3 '247 4000 80103 2 8 18000000 8 4 0' 3
says 'BPPMODE = 3, no STN mode' 'the arithmetic of 3'
says 'lifted by BPPMODE 2, then accepted' 'the mode that fits'
same "$(grep -c 'lifted by' out)" 2 'no number that lifts nothing'
says 'panel 16 by 2 pixels, STN, no STN mode' 'a panel without a mode'
refused 3 '265 4000 80103 2 8 18000000 8 4 0' 3
says 'BPPMODE = 2, no TFT mode' 'a mode of the other panel'
says 'lifted by PNRMODE 2, then accepted' 'the panel that has this mode'
refused 4 '245 4000 80103 2 b 18000000 8 4 0' 4
says 'BSWP = 1, HWSWP = 1 with 4 bits a pixel, 16 greys' 'the arithmetic of 4'
says 'lifted by HWSWP 0, then accepted' 'HWSWP on STN'
refused 5 '245 4000 80103 2 8 18000000 8 6 0' '5 6 8'
says '16 x PAGEWIDTH = 96, W x S = 64' 'the arithmetic of 5'
says 'lifted by PAGEWIDTH 4, then accepted' 'the PAGEWIDTH that fits'
says 'lifted by HOZVAL 2, then refused 6' 'the width that fits'
# mono of 24 pixels: no whole words
refused 5 '241 4000 80203 2 8 18000000 4 2 0' 5
says '16 x PAGEWIDTH = 32, W x S = 24' 'a row that is not of whole words'
says 'lifted by HOZVAL 3, then accepted' 'eight pixels more'
refused 6 '245 4000 80103 2 8 18000000 9 4 0' 6
says 'LCDBASEL = 9, LCDBASEU + (PAGEWIDTH + OFFSIZE) x H = 8 modulo 2^21' 'the arithmetic of 6'
says 'lifted by LCDBASEL 8, then accepted' 'the LCDBASEL that fits'
refused 7 '245 4000 80103 2 8 181ffffc 4 4 0' '7 8'
says '2097156, 2^21 = 2097152: 4 half-words too far' 'the arithmetic of 7'
says 'lifted by LCDBASEU 0 and LCDBASEL 8, then accepted' 'the view moved back into its bank'
refused 8 '245 4000 80103 2 8 18000004 c 4 0' 8
says "the picture needs 0x30000008 to 0x30000017, the dump's video memory is 0x30000000 to 0x3000000f, 8 bytes are missing behind its end" \
    'the arithmetic of 8'
refused 9 '244 4000 80103 2 8 18000000 8 4 0' 9
says 'lifted by ENVID 1, then accepted' 'the cure of 9'
refused 17 '145 4000 80103 2 8 18000000 8 4 0' 17
says 'refused 17 CLKVAL is below 2 on an STN panel' 'the text of 17'
says 'CLKVAL = 1' 'the arithmetic of 17'
says 'CLKVAL 17..8 1 VCLK is HCLK / 2: 500.000 kHz <- refused 17; lifted by 2, then accepted' 'the cure of 17'
says 'needed 0x30000000 to 0x3000000f, 16 bytes' 'the memory that a panel needs, whatever its clock'
refused 17 '45 4000 80103 2 8 18000000 8 4 0' 17
says 'CLKVAL 17..8 0 no VCLK <- refused 17; lifted by 2, then accepted' 'no clock'
says 'line 120 ticks: 2 clocks of 0, VLINE 64' 'a line without a clock'
says 'HCLK 1000000 Hz, no VCLK, no rates' 'why there are no rates'
same "$(grep -c '^VCLK\|^line time\|^line rate\|^frame rate' out)" 0 'no rates and no time without a clock'
run refused.dump --json
same "$(jq -c '.dumps[0] | [.millihertz, .stn_line.ticks, .stn_line.nanoseconds]' out)" \
    '[{"vclk":null,"line":null,"frame":null},120,null]' 'nor in JSON'
# every fault there is at once: 9 comes before 17
refused 1 '46 4000 280103 2 9 18200000 9 4 0' '1 3 4 6 8 9 17'
says 'judged with reserved bits cleared, BPPMODE 2, HWSWP 0 and LCDBASEL 8, the memory that is needed' 'what 9 is judged with'
says 'lifted by ENVID 1, then refused 17' '17 behind 9'
refused 9 '44 4000 80103 2 8 18000000 8 4 0' '9 17'
# words alone: 1 to 7 and 17
gives 1 'refused 17' --words 145 4000 80103 2 8 18000000 8 4 0 --registers
says 'lifted by CLKVAL 2, then accepted' 'the cure of 17 in words'
gives 0 'clocks 4 hclk 256 mhz 0' --words 244 4000 80103 2 8 18000000 8 4 0
gives 0 'clocks 4 hclk 256 mhz 3906250' --words $stn --hclk 1000000
says 'needed 0x30000000 to 0x3000000f, 16 bytes' 'the memory that STN words need'

# ---- words with a memory: no palette

tail -c +557 grey.dump > grey.raw
head -c 512 /dev/zero > palette.raw
gives 0 "$due" --words $stn --hclk 1000000 --memory grey.raw --start 30000000 -o words.png --compare eye.png
same "$(tail -n 1 out)" 'equal: 32 pixels' 'STN words and a memory'
gives 0 "$due" --words $stn --hclk 1000000 --memory grey.raw --start 30000000 -o words.dump
same "$(cmp words.dump grey.dump 2>&1)" '' 'STN words and a memory are the dump'
gives 0 "$due" --words $stn --hclk 1000000 --memory grey.raw --start 30000000 --frame 5 -o frame.png
same "$(png values frame.png)" "$(python3 due.py 5)" 'a frame of words'
wrong "--palette: for TFT panels only; these words are an STN panel's, which has no palette" --words $stn --memory grey.raw --start 30000000 \
    --palette palette.raw -o none.png
gives 1 'refused 3' --words 257 4000 80103 2 8 18000000 8 4 0 --memory grey.raw --start 30000000 --palette palette.raw
same "$(files 'none*')" '' 'nothing is written where a palette is too much'

# ---- beside another dump

run mono.dump --against grey.dump
same "$status: $(sed -n '/^differs/,$p' out | sed 's/   */  /g; s/, first at.*//')" '1: differs from grey.dump
  LCDCON1  BPPMODE  2, 4 bits a pixel, 16 greys  ->  0, 1 bit a pixel, mono
  LCDCON3  HOZVAL  1, 16 pixels a row, the width: 2 clocks of 8  ->  3, 32 pixels a row, the width: 4 clocks of 8
  LCDSADDR2 LCDBASEL  8, A21..1 past the last row: bank + 0x000010  ->  4, A21..1 past the last row: bank + 0x000008
  LCDSADDR3 PAGEWIDTH  4, half-words a row  ->  2, half-words a row
  memory  2 of 2 words
  memory  2 words in the old dump alone' 'two STN panels'
stn_dump '245 4000 380005 103 8 18000000 8 4 800000' f4240 "$levels" > else.dump
run else.dump --against grey.dump
same "$(sed -n '/^differs/,$p' out | sed 's/   */  /g')" 'differs from grey.dump
  LCDCON3  reserved bits 0, bits 31..21  ->  1, bits 31..21
  LCDCON3  WDLY  1, 32 ticks from VLINE to VCLK by rule edition 1  ->  3, 128 ticks from VLINE to VCLK by rule edition 1
  LCDCON3  HOZVAL  1, 16 pixels a row, the width: 2 clocks of 8  ->  0, 8 pixels a row, the width: 1 clock of 8
  LCDCON3  LINEBLANK  3, 24 ticks of blank time a line  ->  5, 40 ticks of blank time a line
  LCDCON4  MVAL  0, VM'\''s rate where MMODE is 1  ->  1, VM'\''s rate where MMODE is 1
  LCDCON4  WLH  2, 64 ticks of VLINE by rule edition 1  ->  3, 128 ticks of VLINE by rule edition 1
  TPAL  reserved bits 0, bits 31..0  ->  8388608, bits 31..0
  refusal  0, accepted  ->  1, refused' 'their own fields'
run grey.dump --against "$td.dump"
same "$(grep 'HBPD\|HFPD\|HSPW\|PNRMODE' out | sed 's/   */  /g')" '  LCDCON1  PNRMODE  3, TFT  ->  2, STN, 8-bit single scan
  LCDCON3  HBPD  19, 20 clocks of back porch  ->  1, WDLY 1: 32 ticks from VLINE to VCLK by rule edition 1
  LCDCON3  HFPD  9, 10 clocks of front porch  ->  3, LINEBLANK 3: 24 ticks of blank time a line
  LCDCON4  HSPW  9, 10 clocks of HSYNC  ->  2, WLH 2: 64 ticks of VLINE by rule edition 1' 'an STN panel beside a TFT one'
# the palette means something beside a TFT panel alone
patch grey.dump 44 1 > palette.dump
run palette.dump --against grey.dump
same "$status $(tail -n 1 out)" '0 no difference from grey.dump' 'the palettes of two STN panels'
run palette.dump --against grey.dump --json
same "$status $(jq -c '.dumps[0].against | [.differs, .palette]' out)" '0 [false,[]]' 'their palettes in JSON'
patch "$td.dump" 44 1 > palette.dump
run grey.dump --against palette.dump
says 'palette entry 0 0x0001 -> 0x0000' 'the palette of a TFT panel beside an STN one'
run palette.dump --against "$td.dump"
same "$status $(grep -c 'palette *entry' out)" '1 1' 'the palettes of two TFT panels'
patch "$td.dump" 32 1 > tpal.dump
run tpal.dump --against grey.dump
says 'TPAL TPALVAL 0, reserved on STN -> 1, its colour, 0x000001' 'and the other way round'

# ---- several, and JSON

cp "$examples/stn320x240-grey.dump" "$examples/stn640x480-mono.dump" .
run stn320x240-grey.dump stn640x480-mono.dump --golden-dir "$examples"
same "$status: $(sed 's/  */ /g' out)" '0: stn320x240-grey.dump 320 by 240 greys 59.728 Hz accepted equal rate by rule edition 1
stn640x480-mono.dump 640 by 480 mono 58.917 Hz accepted equal rate by rule edition 1' 'a line each'
json() { jq -c ".dumps[0] | $1" out; }
run grey.dump --json
same "$(json '[.panel, .width, .height, .bits, .counts.clocks, .counts.hclk, .counts.mhz]')" '["STN",16,2,4,4,256,3906250]' \
    'the facts as JSON'
same "$(json '[.sizes[]]')" '[16,2,4,4,0,0,0,2,0,0,0,2]' 'the sizes as JSON'
same "$(json '.millihertz')" '{"vclk":250000000,"line":7812500,"frame":3906250}' 'the rates as JSON'
same "$(json '.stn_line')" '{"ticks":128,"vline":64,"delay":32,"blank":24,"nanoseconds":128000,"edition":1}' 'the line as JSON'
same "$(json '[.registers[2, 3, 8].fields[] | [.name, .high, .low, .number]]')" \
    '[["WDLY",20,19,1],["HOZVAL",18,8,1],["LINEBLANK",7,0,3],["MVAL",15,8,0],["WLH",1,0,2]]' 'the fields as JSON'
run --words 45 4000 280103 2 8 18000000 8 4 1 --json
same "$(json '[.refusal, .millihertz.vclk, .stn_line.nanoseconds, .faults[0].then_cleared]')" '[1,null,null,17]' 'what there is not'
same "$(json '[.registers[2, 8].reserved_bits_set]')" '["0x00200000","0x00000001"]' 'reserved bits as JSON'
same "$(json '[.faults[] | [.refusal, .lifted_by]]')" \
    '[[1,[{"set":{"PNRMODE":3},"then":3}]],[17,[{"set":{"CLKVAL":2},"then":0}]]]' 'faults as JSON'
run "$td.dump" --json
same "$(json '[.panel, .stn_line]')" '["TFT",null]' 'a TFT panel as JSON'
run other.dump --json
same "$(json '[.panel, .refusal]')" '[null,2]' 'no panel as JSON'
run grey.dump --animate 2 -o two.png --json
same "$status $(json .accepted) $(png head two.png)" "0 true 16 by 2 of 1 frames 2 delays ['4/15625']" 'frames beside JSON'
frames_json() { # due, arguments
    local line=$1
    shift
    run "$@" --json
    same "$(json '[.frame, .frames, .frame_delay, .comparison.frame]')" "$line" "the frames as JSON: $*"
}
frames_json '[0,2,[4,15625],null]' grey.dump --animate 2 -o two.png
frames_json '[7,3,[4,15625],null]' grey.dump --frame 7 --animate 3 -o two.png
delay 0 1/60
frames_json '[0,1,[1,60],null]' clock.dump --animate 1 -o two.png
frames_json '[4294967295,null,null,null]' grey.dump --frame 4294967295 -o two.png
frames_json '[0,null,null,0]' grey.dump --frame 0 --compare nine.png
frames_json '[9,null,null,9]' grey.dump --frame 9 --compare nine.png
frames_json '[null,null,null,null]' grey.dump --compare eye.png
same "$(json '[has("frame", "frames", "frame_delay"), (.comparison | has("frame"))]')" '[true,true,true,true]' 'null is written'
patch grey.dump 1 1 > refused.dump
frames_json '[null,null,null,null]' refused.dump --frame 3 --animate 2 -o none.png
frames_json '[null,null,null,null]' refused.dump --frame 3 -o none.png
run "$td.dump" --compare "$td.png" --json
same "$(json '[has("frame", "frames", "frame_delay"), (.comparison | has("frame"))]')" '[false,false,false,false]' 'no frames on TFT'

# ---- the rule edition: n of WLH and WDLY is 16, 32, 64 or 128 ticks by 1, which is the default, and 16, 32, 48 or 64 by 2

# grey.dump: 2 x 4 + 64 + 32 + 24 = 128 ticks a line by 1, 8 + 48 + 32 + 24 = 112 by 2
gives 0 "$due" grey.dump --edition 1
due2='clocks 4 hclk 224 mhz 4464285'
gives 0 "$due2" grey.dump --edition 2
same "$(sed -n 2p out)" '4.464 kHz by rule edition 2, 250.000 kHz clock of 8 pixels' 'a rate by rule edition 2'
# 320 by 240: 16 x 40 + 64 + 32 + 80 = 816 and 640 + 48 + 32 + 80 = 800
given='845 3bc000 8270a d02 0 18000000 4b00 50 0'
gives 0 'clocks 9600 hclk 195840 mhz 306372' --words $given --hclk 60000000
gives 0 'clocks 9600 hclk 195840 mhz 306372' --words $given --hclk 60000000 --edition 1
gives 0 'clocks 9600 hclk 192000 mhz 312500' --edition 2 --words $given --hclk 60000000
gives 0 'clocks 9600 hclk 192000 mhz 0' --words $given --edition 2
same "$(sed -n 2p out)" 'no rate: HCLK is not given; ticks by rule edition 2' 'ticks without a rate'
stn_dump "$stn" 0 "$levels" > still.dump
gives 0 'clocks 4 hclk 256 mhz 0' still.dump
same "$(sed -n 2p out)" 'no rate: HCLK is 0; ticks by rule edition 1' 'ticks where HCLK is 0'

# the account of an example, 166 x 40 = 6640 ticks of clocks: 6640 + 128 + 128 + 80 and 6640 + 64 + 64 + 80
example=$examples/stn320x240-grey.dump
run "$example" --registers --edition 2
same "$(sed -n '1,18p' out)" 'clocks 9600 hclk 1643520 mhz 60845
60.845 Hz by rule edition 2, 602.409 kHz clock of 8 pixels
panel       320 by 240 pixels, STN, 4 bits a pixel, 16 greys
line        6848 ticks: 40 clocks of 166, VLINE 64, delay 64, blank 80
frame       240 lines: 9600 clocks, 1643520 ticks
HCLK        100000000 Hz
VCLK        602.409 kHz
line time   68.480 us
line rate   14.602 kHz
frame rate  60.845 Hz
rule edition  2, as above       1
  VLINE       64 ticks          128 ticks
  delay       64 ticks          128 ticks
  line        6848 ticks        6976 ticks
  frame       1643520 ticks     1674240 ticks
  line time   68.480 us         69.760 us
  line rate   14.602 kHz        14.334 kHz
  frame rate  60.845 Hz         59.728 Hz' 'an account by rule edition 2'
same "$(grep ' WDLY \| WLH ' out | sed 's/  */ /g')" ' WDLY 20..19 3 64 ticks from VLINE to VCLK by rule edition 2
 WLH 1..0 3 64 ticks of VLINE by rule edition 2' 'the fields by rule edition 2'
side_by_side() { sed -n '/^rule edition/,/^[^r ]/p' out | sed '$d'; }
same "$(side_by_side)" "$(sed -n '/^    rule edition/,/^$/s/^    \(.\)/\1/p' "$top/docs/DUMPS.md")" 'what docs/DUMPS.md shows of it'
run --words $given --hclk 60000000 --registers
same "$(side_by_side)" 'rule edition  1, as above       2
  VLINE       64 ticks          48 ticks
  delay       32 ticks          32 ticks
  line        816 ticks         800 ticks
  frame       195840 ticks      192000 ticks
  line time   13.600 us         13.333 us
  line rate   73.529 kHz        75.000 kHz
  frame rate  306.372 Hz        312.500 Hz' 'both rule editions side by side'
run --words $given --registers --edition 2
same "$(side_by_side)" 'rule edition  2, as above       1
  VLINE       48 ticks          64 ticks
  delay       32 ticks          32 ticks
  line        800 ticks         816 ticks
  frame       192000 ticks      195840 ticks' 'both without HCLK'
run --words 3ff45 ffc000 1fffff 3 8 18000000 0 7fe 0 --registers --edition 2
says 'frame 4292993024 ticks 4293124096 ticks' 'the longest frame by both'
# refused words have an account too, without a clock no rates
run --words 45 4000 80103 2 8 18000000 8 4 0 --hclk 1000000 --registers --edition 2
same "$status $(head -n 1 out) $(side_by_side)" '1 refused 17 rule edition  2, as above       1
  VLINE       48 ticks          64 ticks
  delay       32 ticks          32 ticks
  line        104 ticks         120 ticks
  frame       208 ticks         240 ticks' 'both of refused words'

# every WLH with every WDLY, each by both: one clock of 4 ticks and a blank time of 24 on each of two lines
ticks1=(16 32 64 128) ticks2=(16 32 48 64)
for wlh in 0 1 2 3; do
    for wdly in 0 1 2 3; do
        one=$((28 + ticks1[wlh] + ticks1[wdly])) two=$((28 + ticks2[wlh] + ticks2[wdly]))
        pair=(--words 245 4000 "$(printf %x $((wdly << 19 | 3)))" "$wlh" 8 18000000 4 2 0 --registers)
        run "${pair[@]}"
        same "$status $(head -n 1 out)" "0 clocks 2 hclk $((2 * one)) mhz 0" "WLH $wlh and WDLY $wdly by rule edition 1"
        says "line $one ticks: 1 clock of 4, VLINE ${ticks1[wlh]}, delay ${ticks1[wdly]}, blank 24" "the line of WLH $wlh, WDLY $wdly"
        first=$(side_by_side | sed 's/  */ /g')
        run "${pair[@]}" --edition 2
        same "$status $(head -n 1 out)" "0 clocks 2 hclk $((2 * two)) mhz 0" "WLH $wlh and WDLY $wdly by rule edition 2"
        says "line $two ticks: 1 clock of 4, VLINE ${ticks2[wlh]}, delay ${ticks2[wdly]}, blank 24" "the line of WLH $wlh, WDLY $wdly by 2"
        if [ "$wlh" -lt 2 ] && [ "$wdly" -lt 2 ]; then
            same "$first; $(side_by_side)" 'rule edition 1; 2 gives the same; rule edition  2; 1 gives the same' "no difference at $wlh, $wdly"
        else
            same "$first" "rule edition 1, as above 2
 VLINE ${ticks1[wlh]} ticks ${ticks2[wlh]} ticks
 delay ${ticks1[wdly]} ticks ${ticks2[wdly]} ticks
 line $one ticks $two ticks
 frame $((2 * one)) ticks $((2 * two)) ticks" "both of WLH $wlh and WDLY $wdly"
        fi
    done
done

# JSON
run "$example" --json
same "$(json '[.counts, .millihertz.frame, .stn_line]')" \
    '[{"clocks":9600,"hclk":1674240,"mhz":59728,"edition":1},59728,{"ticks":6976,"vline":128,"delay":128,"blank":80,"nanoseconds":69760,"edition":1}]' \
    'rule edition 1 as JSON'
run "$example" --json --edition 2
same "$(json '[.counts, .millihertz.frame, .stn_line]')" \
    '[{"clocks":9600,"hclk":1643520,"mhz":60845,"edition":2},60845,{"ticks":6848,"vline":64,"delay":64,"blank":80,"nanoseconds":68480,"edition":2}]' \
    'rule edition 2 as JSON'
same "$(json '[.registers[2, 3].fields[] | select(.name == "WDLY" or .name == "WLH").meaning]')" \
    '["64 ticks from VLINE to VCLK by rule edition 2","64 ticks of VLINE by rule edition 2"]' 'the fields by rule edition 2 as JSON'
run --words 145 4000 80103 2 8 18000000 8 4 0 --hclk 1000000 --json --edition 2
same "$(json '[.refusal, .counts, .millihertz.line, .stn_line.ticks, .stn_line.edition]')" '[17,null,9259259,108,2]' 'of refused words as JSON'

# frames: 224 ticks at 1 MHz are 7/31250 s; 1643520 at 100 MHz are 1284/78125, for which 271/16489 is nearest
run grey.dump --animate 2 -o two.png --edition 2
same "$status $(sed -n 3p out)" '0 2 frames from number 0 on, 7/31250 s each by rule edition 2' "a frame's time by rule edition 2"
same "$(png head two.png)" "16 by 2 of 1 frames 2 delays ['7/31250']" 'in the chunks too'
same "$(lines=2 png values two.png)" "$(python3 due.py 0 1)" 'the frames are the same'
run "$example" --frame 7 --animate 3 -o three2.png --edition 2 --json
same "$(png head three2.png) $(json .frame_delay)" "320 by 240 of 1 frames 3 delays ['271/16489'] [271,16489]" 'three frames of an example by rule edition 2'
same "$(lines=3 png values three2.png | md5sum)" "$(lines=3 png values three.png | md5sum)" 'and the frames of the example'
run still.dump --animate 2 -o two.png --edition 2
same "$(sed -n 3p out)" '2 frames from number 0 on, 1/60 s each, since there is no HCLK' 'no edition in a time that has none'

# several, and beside another dump
run stn320x240-grey.dump "$td.dump" stn640x480-mono.dump still.dump refused.dump short.dump --edition 2
same "$status: $(sed 's/  */ /g; s/^[^ ]*//' out)" '1:  320 by 240 greys 60.845 Hz accepted rate by rule edition 2
 240 by 320 16 bits 109.553 Hz accepted
 640 by 480 mono 61.130 Hz accepted rate by rule edition 2
 16 by 2 greys no rate accepted
 16 by 2 greys no rate refused 17
 refused 14' 'several by rule edition 2'
stn_dump "${stn/245/244}" f4240 "$levels" > off.dump
run off.dump short.dump
same "$(sed 's/  */ /g; s/^[^ ]*//' out)" ' 16 by 2 greys 3.906 kHz refused 9 rate by rule edition 1
 refused 14' 'a refused dump that has a rate'
run stn320x240-grey.dump stn640x480-mono.dump --golden-dir "$examples" --edition 2
same "$status: $(sed 's/.*accepted  //' out)" '0: equal  rate by rule edition 2
equal  rate by rule edition 2' 'golden pictures by rule edition 2'
run stn320x240-grey.dump "$td.dump" stn640x480-mono.dump --json --edition 2
same "$(jq -c '[.dumps[].counts | [.mhz, .edition]]' out)" '[[60845,2],[109553,null],[61130,2]]' 'several as JSON by rule edition 2'
run else.dump --against grey.dump --edition 2
same "$(grep '^  LCDCON.* W[DL]' out | sed 's/   */  /g')" \
    '  LCDCON3  WDLY  1, 32 ticks from VLINE to VCLK by rule edition 2  ->  3, 64 ticks from VLINE to VCLK by rule edition 2
  LCDCON4  WLH  2, 48 ticks of VLINE by rule edition 2  ->  3, 64 ticks of VLINE by rule edition 2' 'two dumps by rule edition 2'
run "$td.dump" --against grey.dump --edition 2
says 'LCDCON4 HSPW 2, WLH 2: 48 ticks of VLINE by rule edition 2 -> 9, 10 clocks of HSYNC' 'the other dump by rule edition 2'

# What is printed and written with an edition, beside what is without one: the same to the last byte.
seen() { # arguments; what they write is none.out
    rm -f none.out
    run "$@"
    echo "$status"
    cat out err
    [ ! -e none.out ] || md5sum none.out
    rm -f none.out
}
alike() { # name, edition, arguments
    local name=$1 edition=$2
    shift 2
    same "$(seen "$@" --edition "$edition")" "$(seen "$@")" "$name with --edition $edition: $*"
}
everywhere() { # name, edition, dump: whatever can be asked of it
    alike "$1" "$2" "$3"
    alike "$1" "$2" "$3" --registers
    alike "$1" "$2" "$3" --json
    alike "$1" "$2" "$3" -o none.out
    alike "$1" "$2" "$3" --against "$examples/lq64d343-1.dump"
    alike "$1" "$2" "$3" "$td.dump" short.dump
    alike "$1" "$2" "$3" "$td.dump" --json
}
patch "$td.dump" 0 0x7e > tft.dump
for edition in 1 2; do
    for dump in "$t1" "$examples"/[alt]*.dump other.dump tft.dump; do everywhere 'a TFT panel' $edition "$dump"; done
    for card in '240 320 16' '64 32 8' '1 1 24'; do alike 'a TFT card' $edition --testcard $card -o none.out; done
    alike 'words of a TFT panel' $edition --words $t9 --hclk 100000000 --registers
    alike 'words of a TFT panel' $edition --words $t9
done
for dump in grey.dump mono.dump refused.dump off.dump still.dump "$example"; do everywhere 'rule edition 1 is the default' 1 "$dump"; done
alike 'rule edition 1 is the default' 1 grey.dump --frame 3 --animate 4 -o none.out
alike 'rule edition 1 is the default' 1 --testcard 320 240 grey -o none.out
alike 'rule edition 1 is the default' 1 --words $given --hclk 60000000 --registers
# an STN panel's picture, one frame of it and its dump have no edition
for option in '-o none.png' '--frame 9 -o none.png' '-o none.dump'; do
    run "$example" $option
    md5sum none.* > before && rm none.*
    run "$example" $option --edition 2
    same "$status $(md5sum none.*)" "0 $(cat before)" "an STN panel with $option by rule edition 2"
    rm none.*
done
gives 0 "$due2" grey.dump --edition 2 --compare eye.png
same "$(tail -n 1 out)" 'equal: 32 pixels' 'what the eye sees by rule edition 2'

# what is no edition
for number in 0 3 01 02 1x x '' -1 +1 1.0 ' 1' '2 ' 0x1 0x2 10 12 27 4294967297 4294967298 18446744073709551617; do
    wrong "--edition: the rule edition ${number:-''} is neither 1 nor 2" grey.dump --edition "$number" -o none.png
done
wrong '--edition: the rule edition 0 is neither 1 nor 2' "$td.dump" --edition 0 -o none.png
wrong '--edition: the rule edition 3 is neither 1 nor 2' grey.dump mono.dump --edition 3 --json
wrong '--edition: the rule edition 3 is neither 1 nor 2' --words $stn --edition 3
wrong '--edition: the rule edition 3 is neither 1 nor 2' --testcard 64 64 grey -o none.dump --edition 3
wrong '--edition: a number is missing' grey.dump -o none.png --edition
wrong '--edition: a number is missing' grey.dump --edition --json
wrong '--edition: given twice' grey.dump --edition 2 --edition 2 -o none.png
wrong '--edition: given twice' grey.dump --edition 1 --edition 2
wrong 'DUMP: missing' --edition 2
same "$(files 'none*')" '' 'nothing is written where there is no such edition'
run --help
says '--edition 1|2 ' 'the option in the help'

# ---- test cards

run --testcard 64 64 grey -o card.dump
says '64 by 64 on STN in 16 greys, a border, a ramp of 16 greys' 'a card of greys'
gives 0 'clocks 512 hclk 1069056 mhz 93540' card.dump -o card.png
values=$(png values card.png)
same "$(printf '%s' "${values:0:128}" | sed 's/ff//g')${values:$((128 * 32)):2}${values:$((128 * 33 - 2)):2}" ffff 'the border of a card'
# row 8 of the ramp, without the border and its gap: 58 pixels of 16 steps, black first
same "$(printf '%s' "${values:$((128 * 8 + 6)):116}" | fold -w 2 | uniq | xargs | tr -d ' ')" "$up" 'a ramp of 16 steps'
run --testcard 64 64 mono -o card.dump
says '64 by 64 on STN in mono, in white on black: a border, stripes and squares 1 to 8 pixels wide' 'a card of mono'
run card.dump -o card.png
values=$(png values card.png)
same "$(printf '%s' "${values:$((128 * 4 + 6)):32}")" 00ff00ff00ff00ff00ff00ff00ff00ff 'stripes of one pixel'
same "$(printf '%s' "$values" | fold -w 2 | sort -u | xargs)" '00 ff' 'mono is black and white'
# CLKVAL for a rate near 60 Hz: lines of 80 x CLKVAL + 336 ticks by rule edition 1, 80 x CLKVAL + 208 by 2
run --testcard 320 240 grey -o card.dump
same "$(sed 's/.*; //' out) $(cmp card.dump "$example" 2>&1)" 'CLKVAL by rule edition 1 ' 'the card of an example'
gives 0 'clocks 9600 hclk 1674240 mhz 59728' card.dump
run --testcard 320 240 grey -o card.dump --edition 2
same "$(sed 's/.*; //' out)" 'CLKVAL by rule edition 2' 'a card by rule edition 2'
gives 0 'clocks 9600 hclk 1662720 mhz 60142' card.dump --edition 2
says '60.142 Hz by rule edition 2, 595.238 kHz clock of 8 pixels' 'CLKVAL 84'
same "$(cmp -l card.dump "$example" | wc -l)" 1 'nothing else of the card'
for card in '8 1 grey' '32 1 mono' '16384 1024 mono' '8184 1024 grey'; do
    run --testcard $card -o card.dump
    same "$status" 0 "a card of $card"
    run card.dump
    same "$status" 0 "the card of $card is accepted"
done
no_card() { # why, arguments of --testcard
    local why=$1
    shift
    wrong "--testcard: $why" --testcard "$@" -o none.dump
}
no_card 'width 0 is outside 1 to 16384' 0 1 mono
no_card 'width 16385 is outside 1 to 16384' 16385 1 grey
no_card 'height 1025 is outside 1 to 1024' 32 1025 mono
no_card 'width 16 at 1 bit is no multiple of 32' 16 1 mono
no_card 'width 33 at 1 bit is no multiple of 32' 33 1 mono
no_card 'width 12 at 4 bits is no multiple of 8' 12 1 grey
no_card 'width 4 at 4 bits is no multiple of 8' 4 1 grey
no_card 'width 8192 at 4 bits needs PAGEWIDTH 2048, above 2047' 8192 1 grey
for bpp in x '' greys MONO 4x; do no_card "BPP ${bpp:-''} is none of 1, 2, 4, 8, 16, 24, mono and grey" 64 64 "$bpp"; done
same "$(files 'none*')" '' 'a card that is not made writes nothing'

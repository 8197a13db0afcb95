# A golden picture: of any kind of PNG, by its stored samples; what differs, where and by how much; what the glass does.

png() { base64 -d > "$1.png" <<< "$2"; } # name, bytes

# ---- kinds of PNG, by another writer than the tool: T1's two pixels with 16 bits a sample, with a gamma of 1.0, both, through a palette,
# with full alpha and a background, with full alpha of 16 bits, through a palette with full alpha, interlaced

png sixteen iVBORw0KGgoAAAANSUhEUgAAAAEAAAACEAIAAABGc/0zAAAAFklEQVR42mMQFFRSMjZmWLVq9+4zZwAWswUvI17mRwAAAABJRU5ErkJggg==
png linear iVBORw0KGgoAAAANSUhEUgAAAAEAAAACCAIAAAAW4yFwAAAABGdBTUEAAYagMeiWXwAAABBJREFUeNpjEFQyZli1+wwABooCmJVgqZEAAAAASUVORK5CYII=
png linear16 iVBORw0KGgoAAAANSUhEUgAAAAEAAAACEAIAAABGc/0zAAAABGdBTUEAAYagMeiWXwAAABZJREFUeNpjEBRUUjI2Zli1avfuM2cAFrMFLyNe5kcAAAAASUVORK5CYII=
png paletted iVBORw0KGgoAAAANSUhEUgAAAAEAAAACAQMAAACjTyRkAAAABGdBTUEAAYagMeiWXwAAAAZQTFRFESIzqrvMdX5ihAAAAAxJREFUeNpjYGBoAAAAhACB94g9PgAAAABJRU5ErkJggg==
png opaque iVBORw0KGgoAAAANSUhEUgAAAAEAAAACCAYAAACZgbYnAAAABGdBTUEAAYagMeiWXwAAAAZiS0dEAP8AAAAAMyd88wAAABJJREFUeNpjEFQy/s+waveZ/wAQggSWoIo7UgAAAABJRU5ErkJggg==
png opaque16 iVBORw0KGgoAAAANSUhEUgAAAAEAAAACEAYAAADJEWpkAAAAG0lEQVR42mMQFFRSMjb+/59h1ardu8+c+f8fADqTCSv3tj1dAAAAAElFTkSuQmCC
png paletted-opaque iVBORw0KGgoAAAANSUhEUgAAAAEAAAACCAMAAACuX0YVAAAABlBMVEURIjOqu8x1fmKEAAAAAnRSTlP//8i138cAAAAMSURBVHjaY2BgYAQAAAUAAsuwkmIAAAAASUVORK5CYII=
png interlaced iVBORw0KGgoAAAANSUhEUgAAAAEAAAACCAIAAAFh5BHmAAAAEElEQVR42mMQVDJmWLX7DAAGigKYlWCpkQAAAABJRU5ErkJggg==

for kind in sixteen linear linear16 paletted opaque opaque16 paletted-opaque interlaced; do
    run "$t1" --compare "$kind.png"
    same "$status: $(tail -n 1 out)" '0: equal: 2 pixels' "T1 as a PNG: $kind"
done

# two greys, of 8, 4 and 16 bits and with full alpha

png grey iVBORw0KGgoAAAANSUhEUgAAAAEAAAACCAAAAAC86un7AAAABGdBTUEAAYagMeiWXwAAAAxJREFUeNpj6GBwAQAB4ADNPWCXRwAAAABJRU5ErkJggg==
png grey4 iVBORw0KGgoAAAANSUhEUgAAAAEAAAACBAAAAAB5GgT6AAAADElEQVR42mNoYHAAAAHEAMGmm+a6AAAAAElFTkSuQmCC
png grey16 iVBORw0KGgoAAAANSUhEUgAAAAEAAAACEAAAAADsejW4AAAADklEQVR42mPo6GBwcQEABZoBmQVMpNYAAAAASUVORK5CYII=
png grey-opaque iVBORw0KGgoAAAANSUhEUgAAAAEAAAACCAQAAAAziH6sAAAABGdBTUEAAYagMeiWXwAAAA5JREFUeNpj6PjP4PIfAAgxAss/UkYxAAAAAElFTkSuQmCC

{ head -c 556 "$t1"; printf '\x88\x88\x88\x00\x44\x44\x44\x00'; } > grey.dump
for kind in grey grey4 grey16 grey-opaque; do
    run grey.dump --compare "$kind.png"
    same "$status: $(tail -n 1 out)" '0: equal: 2 pixels' "two greys as a PNG: $kind"
done

# what can't be compared: alpha below full in four ways, a 16-bit sample that no 8-bit one gives, an index without a colour

png seen-through iVBORw0KGgoAAAANSUhEUgAAAAEAAAACCAYAAACZgbYnAAAAEklEQVR42mMQVDL+z7Bq95l/ABCBBJUldcBpAAAAAElFTkSuQmCC
png paletted-seen-through iVBORw0KGgoAAAANSUhEUgAAAAEAAAACCAMAAACuX0YVAAAABlBMVEURIjOqu8x1fmKEAAAAAnRSTlP/gAgPs2oAAAAMSURBVHjaY2BgYAQAAAUAAsuwkmIAAAAASUVORK5CYII=
png keyed iVBORw0KGgoAAAANSUhEUgAAAAEAAAACCAIAAAAW4yFwAAAABnRSTlMAqgC7AMwP6B/MAAAAEElEQVR42mMQVDJmWLX7DAAGigKYlWCpkQAAAABJRU5ErkJggg==
png between iVBORw0KGgoAAAANSUhEUgAAAAEAAAACEAIAAABGc/0zAAAAFklEQVR42mMQFFRSMjZmWLVq9+4zZwEWtAUwlnnUhwAAAABJRU5ErkJggg==
png outside-palette iVBORw0KGgoAAAANSUhEUgAAAAEAAAACCAMAAACuX0YVAAAABlBMVEURIjOqu8x1fmKEAAAADElEQVR42mNgYGACAAAGAANoqP+wAAAAAElFTkSuQmCC
png grey-seen-through iVBORw0KGgoAAAANSUhEUgAAAAEAAAACCAQAAAAziH6sAAAADklEQVR42mPo+M/gwgAABzIBzIrdO0IAAAAASUVORK5CYII=

cant() { # kind, why
    gives 2 "lcdshot: $1.png: can't be compared: $2 at row 1, column 0" "$t1" --compare "$1.png" -o not-written.png
}
cant seen-through 'alpha below full'
cant paletted-seen-through 'alpha below full'
cant keyed 'alpha below full'
cant grey-seen-through 'alpha below full'
cant between 'a 16-bit sample between two 8-bit ones'
cant outside-palette 'an index outside its palette'
same "$(files 'not-written*')" '' 'nothing is written where the golden picture is no use'

# ---- what differs, where and by how much

patch "$td.dump" 16 ^1 > swap.dump
cp "$td.png" g.png
gives 1 'clocks 91280 hclk 912800 mhz 109553' swap.dump --compare g.png --differences seen.png
says 'differs: 8328 of 76800 pixels, first at row 1, column 0: golden f8fcf8, here 000040' 'half-words the wrong way'
gives 1 'clocks 91280 hclk 912800 mhz 109553' swap.dump --compare seen.png
gives 1 'clocks 20 hclk 40 mhz 25000' "$t1" --compare seen.png --differences none.png
same "$(tail -n 1 out)" 'differs in size: golden 240 by 320, here 1 by 2' 'another size'
same "$(files 'none*')" '' 'no differences of pictures of two sizes'

# The lowest bit of blue, VD3, in row 100, column 50 and in row 200, column 7: two bytes a pixel behind the head of 556.
at() { echo $((556 + 2 * (240 * $1 + $2))); } # row, column
patch "$td.dump" "$(at 100 50)" ^1 > a && patch a "$(at 200 7)" ^1 > two.dump
run two.dump --compare g.png
same "$(sed -n '3,4p' out)" "differs: 2 of 76800 pixels, first at row 100, column 50: golden 000040, here 000048
within rows 100 to 200 and columns 7 to 50, largest distance 8 of 255" 'the box and the largest distance'
gives 1 'clocks 91280 hclk 912800 mhz 109553' two.dump --compare g.png --tolerance 7
says 'largest distance 8 of 255, tolerance 7' 'a tolerance too small'
gives 0 'clocks 91280 hclk 912800 mhz 109553' two.dump --compare g.png --tolerance 8 --differences none.png
says 'equal: 76800 pixels within a tolerance of 8, largest distance 8' 'within the tolerance'
same "$(files 'none*')" '' 'no differences within the tolerance'
# T1 with one pixel a step away and one far away: within a tolerance of 1 the first is dimmed and not white
png t1 iVBORw0KGgoAAAANSUhEUgAAAAEAAAACCAIAAAAW4yFwAAAAEElEQVR4nGMQVDJmWLX7DAAGigKYfWEGHgAAAABJRU5ErkJggg==
{ head -c 556 "$t1"; printf '\x34\x22\x11\x00\x00\xbb\xaa\x00'; } > near-and-far.dump
run near-and-far.dump --compare t1.png --tolerance 1 --differences far.png
{ head -c 556 "$t1"; printf '\x0d\x08\x04\x00\xff\xff\xff\x00'; } > far.dump
gives 0 'clocks 20 hclk 40 mhz 25000' far.dump --compare far.png
gives 2 'lcdshot: --tolerance: the distance 256 is above 255; see lcdshot --help' two.dump --compare g.png --tolerance 256
gives 2 'lcdshot: --tolerance: --compare or --golden-dir is missing; see lcdshot --help' two.dump --tolerance 1

# ---- the neighbour that would be equal

neighbour() { # what is due, arguments
    local due=$1
    shift
    run "$@"
    same "$status: $(grep '^\(equal with\|not equal\|not drawn\)' out)" "1: $due" "the neighbour of $*"
}
neighbour 'equal with HWSWP 1' swap.dump --compare g.png
patch "$td.dump" 17 ^8 > format.dump
neighbour 'equal with FRM565 1' format.dump --compare g.png
patch "$examples/lq035q1dg06-8.dump" 16 ^2 > bytes.dump
neighbour 'equal with BSWP 1' bytes.dump --compare "$examples/lq035q1dg06-8.png"
{ head -c 16 "$t1"; printf '\x00\x10'; tail -c +19 "$t1"; } > high.dump
neighbour 'equal with BPP24BL 0' high.dump --compare t1.png
neighbour 'not equal with HWSWP 0
not drawn with BSWP 1: refused 4
not equal with BPP24BL 1
not equal with FRM565 0
not drawn with LCDBASEU 240 and LCDBASEL 77040 (a row more): refused 8' two.dump --compare g.png
run two.dump -o two.png
neighbour 'equal with HWSWP 1' swap.dump --compare two.png --tolerance 8
run swap.dump --compare two.png --tolerance 7
same "$(grep -c '^not equal with HWSWP 1' out)" 1 'a neighbour outside the tolerance'
# T1 with a row more of memory, its viewport a row down: LCDBASEU 2 and LCDBASEL 6; then back again
{ cat "$t1"; printf '\x01\x02\x03\x00'; } > three.dump
patch three.dump 20 2 > a && patch a 24 6 > down.dump
run down.dump -o down.png
neighbour 'equal with LCDBASEU 0 and LCDBASEL 4 (a row less)' down.dump --compare t1.png
neighbour 'equal with LCDBASEU 2 and LCDBASEL 6 (a row more)' three.dump --compare down.png

# ---- what the glass does with an equal picture

patch "$td.dump" 16 ^8 > dark.dump
gives 0 'clocks 91280 hclk 912800 mhz 109553' dark.dump --compare g.png
says 'the glass stays dark where LCD_PWREN switches it: PWREN is 0' 'PWREN 0'
patch "$td.dump" 16 ^0x80 > negative.dump
gives 0 'clocks 91280 hclk 912800 mhz 109553' negative.dump --compare g.png
says 'the glass gets the negative of this picture: INVVD is 1' 'INVVD 1'
says 'equal: 76800 pixels' 'pictures are before INVVD'
patch negative.dump 16 ^8 > both.dump
run both.dump
says 'the glass stays dark where LCD_PWREN switches it: PWREN is 0; lit, it would show the negative: INVVD is 1' 'PWREN 0, INVVD 1'
same "$("$shot" "$td.dump" --compare g.png | grep -c glass)" 0 'no word of a glass that shows the picture'

# Files: none is lost, none is left half done, and what is no regular file stays what it is.

patch "$td.dump" 16 ^1 > swap.dump

# ---- an output that is an input, or another output, by whatever name: an error, and nothing is touched

fresh() { # the files of the next case
    rm -rf g.png link.png hard.png X.dump new.png dangling.png out.png
    cp "$td.png" g.png && cp swap.dump X.dump
    ln -s g.png link.png && ln g.png hard.png && ln -s new.png dangling.png
}
# The tool is to exit with 2 and to leave g.png and X.dump as they are and no new file.
keeps() { # arguments
    fresh
    run "$@"
    same "$status $(wc -c < out) $(cmp g.png "$td.png" 2>&1)$(cmp X.dump swap.dump 2>&1)$(files 'new*')$(files 'out.p*')$(files '.lcd*')" \
        '2 0 ' "lcdshot $*"
    same "$(grep -c 'the same file as .*; nothing is written$' err)" 1 "why not lcdshot $*"
}
keeps swap.dump -o g.png --compare g.png
keeps swap.dump -o ./g.png --compare g.png
keeps swap.dump -o "$PWD/../files/g.png" --compare g.png
keeps swap.dump -o link.png --compare g.png
keeps swap.dump -o g.png --compare link.png
keeps swap.dump -o hard.png --compare g.png
keeps swap.dump --differences g.png --compare g.png
keeps swap.dump --differences hard.png --compare g.png
keeps swap.dump -o new.png --differences new.png --compare g.png
keeps swap.dump -o new.png --differences ./new.png --compare g.png
keeps swap.dump -o new.png --differences dangling.png --compare g.png
keeps swap.dump -o - --differences - --compare g.png
keeps X.dump -o X.dump
keeps X.dump -o ./X.dump
keeps X.dump -o out.png --differences X.dump --compare g.png
keeps swap.dump --against X.dump -o X.dump
keeps --words $t9 --memory X.dump --start 30000000 -o X.dump
keeps --words $t9 --memory swap.dump --start 30000000 --palette X.dump -o X.dump
fresh
status=0
"$shot" - -o X.dump < X.dump > out 2> err || status=$?
same "$status $(cmp X.dump swap.dump 2>&1)" '2 ' 'standard input and the output are one file'
status=0
"$shot" X.dump >> X.dump 2> err || status=$?
same "$status $(cmp X.dump swap.dump 2>&1)" '2 ' 'the dump is standard output'
status=0
"$shot" X.dump 2>> X.dump > out || status=$?
same "$status $(cmp X.dump swap.dump 2>&1)$(grep -c 'standard error: the same file' out)" '2 1' 'the dump is standard error'
status=0
"$shot" X.dump >> X.dump 2>&1 || status=$?
same "$status $(cmp X.dump swap.dump 2>&1)" '2 ' 'the dump is both'
status=0
"$shot" X.dump -o - > out 2>&1 || status=$?
same "$status $(grep -c 'the same file as the report on standard error' out)" '2 1' 'picture and report in one file'
status=0
{ "$shot" X.dump -o - 2>&1 || status=$?; } | cat > out
same "$(grep -c 'the same file as the report on standard error' out) $(wc -l < out)" '1 1' 'picture and report in one pipe'
status=0
"$shot" X.dump -o out.png > out 2>> out || status=$?
same "$status $(head -c 4 out.png | tail -c 3)" '0 PNG' 'a report with errors and lines in one file'

# All inputs are read before anything is written.
fresh
gives 2 'lcdshot: no.png: No such file or directory' swap.dump -o out.png --compare no.png
gives 2 'lcdshot: no.dump: No such file or directory' no.dump -o g.png
same "$(files 'out.p*')$(cmp g.png "$td.png" 2>&1)" '' 'nothing is written where an input is missing'

# ---- what is no regular file stays what it is

"$shot" "$td.dump" -o plain.png > out
mkfifo pipe
timeout 10 cat pipe > through.png &
run "$td.dump" -o pipe
wait || true
same "$status $(stat -c %F pipe) $(cmp through.png plain.png 2>&1)" '0 fifo ' 'a picture to a FIFO'
# devices of the cases' own, and not those of /dev: a tool that replaces what stands at the path would take them away
mknod device c 1 3 2> /dev/null && {
    run "$td.dump" -o device
    same "$status $(stat -c %F device)" '0 character special file' 'a picture to a device'
    mknod full c 1 7
    run "$td.dump" -o full
    same "$status $(cat err)" '2 lcdshot: full: No space left on device' 'a picture to a full device'
    run "$td.dump" --json -o full
    same "$status $(wc -c < out)" '2 0' 'no JSON that says otherwise than the exit status'
} || echo 'no devices can be made: their cases are left out' >&2
fresh
run "$td.dump" -o link.png
same "$status $(readlink link.png) $(cmp g.png plain.png 2>&1)" '0 g.png ' 'a picture through a symbolic link'
run "$td.dump" -o dangling.png
same "$status $(readlink dangling.png) $(cmp new.png plain.png 2>&1)" '0 new.png ' 'a new picture through a symbolic link'
mkdir -p elsewhere/deep
ln -s ../elsewhere/deep/end.png elsewhere/second.png && ln -s elsewhere/second.png first.png
run "$td.dump" -o first.png
same "$status $(readlink first.png) $(cmp elsewhere/deep/end.png plain.png 2>&1)" '0 elsewhere/second.png ' 'through two links'
ln -s loop.png loop.png
gives 2 'lcdshot: loop.png: Too many levels of symbolic links' "$td.dump" -o loop.png
"$shot" "$td.dump" -o >(cat > substituted.png) > out && wait $! || true
same "$(cmp substituted.png plain.png 2>&1)" '' 'a picture to a program'
run swap.dump --compare "$td.png" -o one-new.png --differences other-new.png
same "$status $(files '*-new.png' | xargs)" '1 ./one-new.png ./other-new.png' 'two new pictures in one folder'
gives 2 "lcdshot: '': No such file or directory" "$td.dump" -o ''
for mode in 600 640 444 755; do
    cp plain.png moded.png && chmod $mode moded.png
    run "$td.dump" -o moded.png
    same "$status $(stat -c %a moded.png)" "0 $mode" "a replaced picture keeps mode $mode"
    rm -f moded.png
done
(umask 027 && "$shot" "$td.dump" -o masked.png > out)
same "$(stat -c %a masked.png)" 640 'a new picture has the usual mode'
if [ "$(id -u)" -eq 0 ] && setpriv --reuid=65534 --regid=65534 --clear-groups true 2> /dev/null; then
    mkdir theirs && cp "$shot" "$td.dump" theirs && cp plain.png theirs/kept.png
    chmod 711 "$work" "$work/files" && chown -R 65534:65534 theirs && chmod 444 theirs/kept.png
    status=0
    setpriv --reuid=65534 --regid=65534 --clear-groups theirs/lcdshot theirs/td035sted4-16.dump -o theirs/kept.png > out 2> err || status=$?
    same "$status $(cat err)" '2 lcdshot: theirs/kept.png: Permission denied' 'a write-protected picture stays'
    run "$td.dump" -o theirs/kept.png
    same "$status $(stat -c '%u:%g %a' theirs/kept.png)" '0 65534:65534 444' 'a replaced picture keeps its owner'
else
    echo 'not root: the cases of other owners are left out' >&2
fi
ln plain.png second-name.png
run swap.dump -o second-name.png
same "$(cmp plain.png "$td.png" 2>&1)" '' 'another name of a replaced file keeps the old picture'

# ---- standard input and output

"$shot" "$td.dump" -o - > through.png 2> err
same "$(cmp through.png plain.png 2>&1) $(cat err)" ' clocks 91280 hclk 912800 mhz 109553
109.553 Hz, 10.000 MHz pixel clock' 'a picture to standard output, the text to standard error'
ln -s /proc/self/fd/1 stdout
"$shot" "$td.dump" -o stdout 2> err | cat > through.png
same "$(cmp through.png plain.png 2>&1) $(readlink stdout) $(head -n 1 err)" ' /proc/self/fd/1 clocks 91280 hclk 912800 mhz 109553' \
    'standard output by its other name'
run swap.dump --compare "$td.png" --differences seen.png
"$shot" swap.dump --compare "$td.png" --differences - 2> err > through.png || true
same "$(cmp through.png seen.png 2>&1) $(grep -c differs: err)" ' 1' 'differences to standard output'
"$shot" --testcard 240 320 16 -o - 2> err | "$shot" - --compare "$td.png" > out
same "$(tail -n 1 out)" 'equal: 76800 pixels' 'a test card through a pipe'
gives 0 'clocks 91280 hclk 912800 mhz 109553' "$td.dump" --compare - < "$td.png"
gives 2 'lcdshot: -: standard input can be read once; see lcdshot --help' - --compare - < "$td.png"
gives 2 'lcdshot: -: standard input can be read once; see lcdshot --help' - --against - < "$td.dump"
status=0
script -qec "$shot '$td.dump' -o -" /dev/null < /dev/null > out 2>&1 || status=$?
same "$status $(grep -c 'standard output: a terminal' out)" '2 1' 'no picture to a terminal'
status=0
script -qec "$shot '$td.dump' -o stdout" /dev/null < /dev/null > out 2>&1 || status=$?
same "$status $(grep -c 'stdout: a terminal' out)" '2 1' 'nor by its other name'

# ---- a lost line is noticed on every path

full() { # arguments
    status=0
    "$shot" "$@" > /dev/full 2> err || status=$?
    same "$status $(cat err)" '2 lcdshot: standard output: No space left on device' "lcdshot $* to a full device"
}
full --help
full -h
full --version
full "$td.dump"
full "$td.dump" --registers
full "$td.dump" --json
full "$td.dump" "$t1"
full swap.dump --compare "$td.png"
full swap.dump --against "$td.dump"
full --testcard 64 64 16 -o card.dump
full --words $t9
patch "$t1" 0 0x5b > refused.dump
full refused.dump
full refused.dump --registers
head -c 5 "$t1" > short.dump
full short.dump
status=0
"$shot" "$td.dump" >&- 2> err || status=$?
same "$status $(cat err)" '2 lcdshot: standard output: Bad file descriptor' 'no standard output'
status=0
"$shot" "$td.dump" -o closed.png >&- 2> err || status=$?
same "$status $(cmp closed.png plain.png 2>&1)" '2 ' 'no standard output, and no line of it in the picture'
status=0
"$shot" "$td.dump" -o - 2> /dev/full > through.png || status=$?
same "$status" 2 'a lost line on standard error'

# ---- other errors

echo kept > kept.png
gives 2 'lcdshot: .: Is a directory' .
gives 2 'lcdshot: no/screen.png: No such file or directory' "$t1" -o no/screen.png
gives 2 'lcdshot: kept.png/screen.png: Not a directory' "$t1" -o kept.png/screen.png
gives 2 "lcdshot: kept.png: can't be read as a PNG: not a PNG file" "$t1" --compare kept.png
gives 2 "lcdshot: $t1: can't be read as a PNG: not a PNG file" "$t1" --compare "$t1"
head -c -20 "$td.png" | head -c 2000 > half.png
gives 2 "lcdshot: half.png: can't be read as a PNG: it ends too early" "$td.dump" --compare half.png
mkdir -p folder.png
gives 2 'lcdshot: folder.png: Is a directory' "$t1" -o folder.png
(ulimit -f 1 && "$shot" "$td.dump" -o big.png > out 2> err) || status=$?
same "$status: $(cat err)" '2: lcdshot: big.png: File too large' 'no room for the picture'
(ulimit -f 1 && "$shot" --testcard 240 320 16 -o big.dump > out 2> err) || status=$?
same "$status: $(cat err)" '2: lcdshot: big.dump: File too large' 'no room for the dump'
status=0
(ulimit -f 0 && "$shot" "$td.dump" --registers > report 2> /dev/null) || status=$?
same "$status" 2 'no room for the report'
for wrong in '' '--no' '-x' "$t1 -o" "$t1 --differences d.png" "$t1 -o a -o b" '--testcard 1 1 24' "--testcard 1 1 24 -o d $t1" \
    "$t1 $t1 -o d" "$t1 $t1 --registers" "$t1 --golden-dir . --compare kept.png" "$t1 --hclk 1" '--words 1 2 3' "--words $t9 $t1" \
    "--words $t9 -o d.png" "--words $t9 --memory $t1" "--words $t9 --start 0" "--words $t9 --hclk x"; do
    run $wrong
    same "$status $(wc -c < out) $(grep -c 'see lcdshot --help$' err)" '2 0 1' "lcdshot $wrong"
done
same "$(cat kept.png) $(files '.lcdshot*') $(files 'big*')" 'kept  ' 'no file is left behind'
cp "$t1" ./-t1
gives 0 'clocks 20 hclk 40 mhz 25000' -- -t1
gives 0 'usage: lcdshot DUMP [-o SCREEN.png] [--registers] [--compare GOLDEN.png [--tolerance N] [--differences DIFF.png]]' --help
gives 0 'usage: lcdshot DUMP [-o SCREEN.png] [--registers] [--compare GOLDEN.png [--tolerance N] [--differences DIFF.png]]' "$t1" -h
same "$("$shot" --version)" "lcdshot 2.2, with lcd.h $(sed -n 's/#define LCD_VERSION "\(.*\)"/\1/p' "$top/host/lcd.h")" 'the version'

# The script that builds the tool and runs it, in a copy of the tree.

mkdir tree tree/host
cp "$top/Makefile" "$top/crates.txt" tree
tar -C "$top" --exclude='crates/*/out' -cf - crates | tar -C tree -xf -
cp -r "$top/host/lcdshot" "$top/host/tool" "$top/host/setup" "$top/host/lcd.h" "$top/host/lcd_refusals.c" "$top/host/shot" tree/host
script=$PWD/tree/host/lcdshot

# All commands but the kit; and, for a call when nothing changed, those alone that it may need.
mkdir without-rt few
ln -s /usr/bin/* /bin/* without-rt 2> /dev/null || true
rm -f without-rt/rt
for command in sh readlink find; do ln -s "$(command -v "$command")" few; done

# Runs the script with the commands of a folder: exit status and first line printed.
by_script() { # folder, arguments
    local path=$PWD/$1
    shift
    status=0
    (PATH=$path "$script" "$@") > out 2> err || status=$?
}
due='clocks 20 hclk 40 mhz 25000'

by_script without-rt "$t1"
same "$status $(head -n 1 err)" '2 the Rattle kit (rt) is missing; it proves and builds target/staticlib/liblcd.a' 'no kit'
mkdir -p tree/target/staticlib
cp "$top/target/staticlib/liblcd.a" tree/target/staticlib
by_script without-rt "$t1"
same "$status $(head -n 1 out)" "0 $due" 'no kit, and none needed'
by_script few "$t1"
same "$status $(head -n 1 out) $(wc -c < err)" "0 $due 0" 'where nothing changed, nothing is asked but the files'
mv tree/target/host/lcdshot.built kept.built
by_script few "$t1"
same "$status $(head -n 1 out) $(wc -c < err)" "0 $due 0" 'a tool that make built'
mv kept.built tree/target/host/lcdshot.built

# from any folder, through a symbolic link, with files named as seen from there
mkdir -p 'elsewhere/a b'
cp "$t1" 'elsewhere/a b/t1.dump'
ln -s "$script" elsewhere/shot && ln -s ../shot 'elsewhere/a b/again'
for call in ../shot ./again "$script" ../../tree/host/lcdshot ../../tree/host/../host/lcdshot; do
    same "$(cd 'elsewhere/a b' && "$call" t1.dump | head -n 1)" "$due" "the script as $call"
done
same "$(cd 'elsewhere/a b' && PATH=$PWD:$PATH CDPATH=/ again t1.dump -o screen.png | head -n 1; ls)" "$due
again
screen.png
t1.dump" 'the script by its name alone'

# what changed is built, and a file more or less is noticed
sed -i 's/lcdshot 2\.2/lcdshot 2.2-changed/' tree/host/shot/options.c
GNUMAKEFLAGS=-n MAKEFLAGS=-n by_script without-rt --version
same "$status $(cut -d, -f1 out)" '0 lcdshot 2.2-changed' 'a changed source, whatever the caller asks of make'
echo 'int more;' > tree/host/shot/more.c
by_script without-rt --version
same "$status $([ -e tree/target/host/shot/more.o ] && echo built)" '0 built' 'a new source'
rm tree/host/shot/more.c
by_script few --version
same "$status" 2 'a source less is noticed, and can not be built without make'
echo 'error' >> tree/host/shot/card.c
by_script without-rt --version
same "$status $(wc -c < out)" '2 0' 'a source that can not be compiled'
cp "$top/host/shot/card.c" tree/host/shot

# several at once after a change: each runs a whole program
for round in 1 2 3 4; do
    touch tree/host/shot/card.c
    for call in 1 2 3 4 5 6; do
        { "$script" "$t1" 2>&1 | head -n 1 > "at-once-$call"; } &
    done
    wait
    same "$(cat at-once-* | sort -u)" "$due" "six calls at once after a change, round $round"
done

# ---- the commands of the documents, as they stand there

cp -r "$top/README.md" "$top/examples" "$top/docs" tree
cd tree
tail -c +557 "$td.dump" > fb.bin
head -c 1024 /dev/zero > palette.bin
commands=0
while IFS= read -r line; do
    case $line in p=*) eval "$line" && continue ;; esac
    commands=$((commands + 1))
    status=0
    eval "$line" > out 2> err || status=$?
    same "$status $(wc -c < err)" "$([[ $line = *--against* ]] && echo 1 || echo 0) 0" "$line"
done < <(sed -n 's/^ \{4,\}\(host\/lcdshot .*\)/\1/p; s/^ \{4,\}\(p="--palette.*\)/\1/p' README.md docs/DUMPS.md)
same "$commands $(ls screen.png board.dump card.dump)" "22 board.dump
card.dump
screen.png" 'all commands were found'
# in docs/REFERENCE.md the line below a command is the first that it prints
commands=0
while IFS= read -r line && IFS= read -r due; do
    commands=$((commands + 1))
    same "$(eval "$line" | head -n 1)" "$due" "$line"
done < <(sed -n '/^    host\/lcdshot /{N; s/^    \(.*\)\n    /\1\n/p}' docs/REFERENCE.md)
same "$commands" 4 'all commands of the reference were found'
cd ..

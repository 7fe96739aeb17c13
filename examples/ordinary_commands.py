"""The commands that `examples/test-mount` runs in a mounted folder and in a plain one."""

# What may be missing: a command that names one of them is skipped then.
PROGRAMS = "git gunzip gzip install make patch python3 rsync setfattr setpriv tar xz".split()
# `show` tells names, kinds, permission bits, owners, sizes of files and times of modification.
# `names` tells of names which are one file, by the line of its first name, with their link counts; a mount may tell what was for a second.
SHOW = """names() { sleep 1.2; find "$@" ! -type d -printf '%i %n %p\\n' | sort -k 3 | awk '{ if (!($1 in first)) first[$1] = NR; print first[$1], $2, $3 }'; }
show() { find "$@" -type d -printf '%p/ %m %U %G %T@\\n' -o -printf '%p %m %U %G %s %T@\\n' | sort; }; """

COMMANDS = """
ls
ls -R
cat a
cat none
cp a b
cp a b c 2>&1
mkdir d d/e
mkdir d
mkdir -p d/f/g/h
cp b d/e/b
cp -r d copy
cat a b d/e/b > joined
printf 'one\\ntwo\\nthree\\n' > lines
printf 'four\\n' >> lines
printf 'five\\nfour\\n' | tee -a lines
wc -l lines
wc -c a b lines
grep -n t lines
grep -rl hello . | sort
head -n 2 lines
tail -n 2 lines
sort -r lines
sort -o lines lines
uniq -c lines
diff lines a
cmp a b
mv b d/moved
mv d/moved b
mv -f a b
mv d/f d/e/f
rmdir d/e/f/g/h
rmdir d
dd if=/dev/zero of=zeros bs=64k count=40 status=none
dd if=zeros of=some bs=1000 skip=3 count=5 seek=2 status=none
dd if=a of=b conv=notrunc bs=1 seek=100 status=none 2>&1
seq 1 200000 > numbers
md5sum numbers
tail -c 100 numbers
truncate -s 1000 numbers
truncate -s 5000 numbers
md5sum numbers
find . -type f -name 'b*' | sort
find . -type d | sort
find . -size +100k
stat -c '%s %F' numbers
python3 -c "import os; f = os.open('room', os.O_RDWR | os.O_CREAT); os.posix_fallocate(f, 5, 9000); print(os.fstat(f).st_size)" && md5sum room && rm room
test -f numbers && test -d d && test ! -e none
echo *
(exec 3< lines; rm lines; cat <&3; ls)
(exec 3<> made; echo kept >&3; mv b made; cat /dev/fd/3 || true; ls) 2>/dev/null
split -l 200 -d joined part-
rm part-*
rm none
rm d
rm -r copy
du -a --apparent-size . | cut -f2 | sort
awk '{ n += length($0) } END { print n }' joined
tar -cf - . | tar -tf - | sort
python3 -c "import mmap; f = open('zeros', 'r+b'); m = mmap.mmap(f.fileno(), 0); m[70000:70005] = b'mmaps'; m.flush(); m.close()"
md5sum zeros
for n in $(seq 1 60); do echo $n > d/file-$n; done
ls d | wc -l
cat d/file-* | md5sum
find d -name 'file-*' -delete
sync zeros
mkdir 'a b' && echo odd > 'a b/c "d"' && cat 'a b/c "d"'
rm -rf d 'a b'
""".strip().split("\n")

# What sets times, modes and owners, or goes by them. ELSEWHERE is a folder on another file system, where there is one.
SETTING = r"""
echo text > t && touch t && test $(($(date +%s) - $(stat -c %Y t))) -lt 60
touch -d '2001-02-03 04:05:06.123456789' t && stat -c '%x %y' t
touch -a -d '2002-02-03 04:05:06.5' t && stat -c '%x %y' t
touch -m -d @1000000000.000000001 t && stat -c %y t
touch -d 1960-01-01 t && stat -c '%x %y' t
touch -r t u && stat -c '%y' u && touch -d @999999999.5 u && touch -r u v && stat -c '%x %y' v
touch -c none
truncate -s 4 t && test t -nt u
chmod 600 t && stat -c '%a %A' t
chmod u+x,g+r t && stat -c %a t
chmod 4755 t && stat -c '%a %A' t
chmod 4755 t && echo more >> t && stat -c %a t && chmod 6755 t && truncate -s 3 t && stat -c %a t
chmod 0 t && stat -c %a t && chmod 644 t && stat -c %a t
mkdir -m 711 dm && stat -c %a dm
chmod 1777 dm && stat -c %A dm && chmod 2750 dm && stat -c %A dm
chmod 0 dm && stat -c %a dm && chmod 755 dm && stat -c %a dm
chown "$(id -u):$(id -g)" t dm && stat -c '%u %g' t dm
(umask 077; echo new > private; mkdir pd; stat -c %a private pd)
(umask 0; echo new > public; mkdir qd; stat -c %a public qd)
(umask 027; mkdir -p rd/e; echo > rd/e/f; stat -c %a rd rd/e rd/e/f)
mkdir -p tree/sub/deep && seq 1 500 > tree/numbers && echo x > tree/sub/x && cp tree/numbers tree/sub/deep/n
chmod 640 tree/sub/x && chmod 700 tree/sub && chmod 444 tree/sub/deep/n
find tree -depth -exec touch -d '1999-12-31 23:59:59.987654321' {} + && show tree
cp -p tree/sub/x kept && show kept
for n in $(seq 1 50); do cp tree/sub/deep/n read-only; tail -1 read-only; rm -f read-only; done
cp -a tree copied && show copied
cp -a copied/. copied2 && show copied2
cp -u tree/numbers copied/numbers && show copied/numbers
install -m 640 t installed && stat -c %a installed
install -d -m 700 made2 && stat -c %a made2
mkdir -p "$ELSEWHERE/m" && seq 9 > "$ELSEWHERE/m/f" && chmod 640 "$ELSEWHERE/m/f" && touch -d @900000000.5 "$ELSEWHERE/m/f" "$ELSEWHERE/m" && mv -n "$ELSEWHERE/m" moved && show moved
echo other > "$ELSEWHERE/t" && mv -n "$ELSEWHERE/t" t; cat t; rm -f "$ELSEWHERE/t"
cp -a tree "$ELSEWHERE/out" && (cd "$ELSEWHERE" && show out) && rm -rf "$ELSEWHERE/out"
tar -cf "$ELSEWHERE/x.tar" tree && mkdir x && tar -xf "$ELSEWHERE/x.tar" -C x && show x/tree
tar -xf "$ELSEWHERE/x.tar" -C x && tar -df "$ELSEWHERE/x.tar" -C x && show x/tree
tar -czf x.tgz tree && mkdir y && tar -xpzf x.tgz -C y && show y/tree && rm x.tgz
rsync -a tree/ synced && show synced
rsync -ai tree/ synced
chmod 600 tree/numbers && seq 1 501 > tree/sub/x && rsync -ai tree/ synced | cut -c1-9,12-
rsync -ai --delete tree/ synced && rm -r tree/sub/deep && rsync -ai --delete tree/ synced | grep -v '^\.d'
gzip -9 tree/numbers && show tree/numbers.gz && gunzip tree/numbers.gz && show tree/numbers && md5sum tree/numbers
xz tree/numbers && show tree/numbers.xz && xz -d tree/numbers.xz && show tree/numbers && md5sum tree/numbers
seq 1 20 > before && seq 1 20 | sed s/7/seven/ > after && (diff -u --label before --label after before after > change.diff; chmod 640 before; patch before < change.diff; cat before; stat -c %a before)
patch -R before < change.diff && md5sum before && rm change.diff after
printf 'out: in\n\ttr a-z A-Z < in > out\n' > Makefile && echo one > in && make && cat out
make; make -q; echo $?
sleep 0.1; echo two > in && make && cat out && make
touch -d 2001-01-01 in && make && touch -d 2031-01-01 in && make 2>&1 | grep -v 'modification time'; cat out; rm Makefile in out
touch -d 2000-01-01 old && touch -d 2000-01-02 middle && touch -d 2000-01-03 recent && find . -maxdepth 1 -newer middle -name recent -o -newer middle -name old
find . -maxdepth 1 -newermt 2000-01-01T12:00 ! -newermt 2000-01-04 | sort
ls -t old middle recent
test "$(ls -i t | cut -d' ' -f1)" = "$(stat -c %i t)" && find . -maxdepth 1 -inum "$(stat -c %i t)"
find tree -perm 600 | sort
find . -maxdepth 1 -user "$(id -u)" -name t
printf 'one\ntwo\n' > words && chmod 640 words && sed -i s/one/1/ words && cat words && stat -c %a words
chmod 755 words && sed -i.old 's/two/2/' words && cat words words.old && stat -c %a words words.old
printf '#!/bin/sh\necho ran "$@"\n' > script && chmod +x script && ./script a b
chmod -x script; ./script; echo $?
chmod 500 script && ./script && rm -f script
test -w t && test -r t && test ! -x t && echo as it is
python3 -c "import shutil; shutil.copytree('copied', 'copied3')" && show copied3
python3 -c "import os; os.utime('t', ns=(5, 1234567890123456789)); print(os.stat('t').st_mtime_ns, os.stat('t').st_atime_ns); os.truncate('t', 2); os.chmod('t', 0o640); print(oct(os.stat('t').st_mode), open('t').read())"
python3 -c "import os, stat; f = os.open('ro', os.O_WRONLY | os.O_CREAT | os.O_EXCL, 0o400); os.write(f, b'kept'); os.fchmod(f, 0o440); os.utime(f, (7, 8)); os.close(f); print(oct(os.stat('ro').st_mode), os.stat('ro').st_mtime, open('ro').read())"
find . -path ./g -prune -o -exec touch -d @1000000000.25 {} + && ls -lR --time-style=full-iso | awk '/^total/ { next } /^d/ { $5 = 0 } { $1 = $1; print }'
git init -q g && cd g && git branch -q -M main && git config user.name a && git config user.email a@b && echo abc > f && mkdir d && echo e > d/e && chmod +x d/e && git add . && git commit -q -m one && git status --porcelain && git log --format=%H
cd g && git status --porcelain && git diff --stat && git ls-files -s
cd g && printf 'aXc\n' > f && git status --porcelain
cd g && git diff | cat && git stash -q && cat f && git status --porcelain && git stash pop -q && cat f
cd g && chmod -x d/e && git status --porcelain && chmod +x d/e && git status --porcelain
cd g && git commit -q -a -m two && git checkout -q -b other && git rm -q d/e && git commit -q -m three && git checkout -q main && git merge -q other && ls && git log --format=%s
git clone -q g c && cd c && git log --format=%H && git status --porcelain && ls -l f | cut -c1-10
cd g && git gc -q && git fsck --no-progress && git status --porcelain && git count-objects | cut -d, -f1
cd g && seq 1 300 | while read n; do echo $n > n$n; done && git add . && git commit -q -m many && git status --porcelain && git ls-files | wc -l
git clone -q --bare g bare && git -C c pull -q && git -C c log --format=%s
cd c && git reset -q --hard HEAD~1 && git clean -q -f && git status --porcelain && ls
rm -rf g c bare
rm -rf tree copied copied2 copied3 synced x y
""".strip().split("\n")

# The same for root alone.
SETTING_AS_ROOT = r"""
chown 1:2 t && stat -c '%u %g' t
chown 3 t && chown :4 t && stat -c '%u %g' t
mkdir -p own/d && echo > own/d/f && chown -R 1:2 own && show own | cut -d' ' -f1-4
cp -a own own2 && chown -h 5 own2/d/f && stat -c '%u %g' own2 own2/d own2/d/f
chmod 6755 t && chown 0:0 t && stat -c '%a %u %g' t
tar -cf "$ELSEWHERE/o.tar" own && rm -r own && tar -xf "$ELSEWHERE/o.tar" && show own | cut -d' ' -f1-4
mkdir sg && chgrp 5 sg && chmod 2775 sg && echo > sg/f && mkdir sg/d && show sg | cut -d' ' -f1-4
install -o 7 -g 8 -m 604 t installed2 && stat -c '%a %u %g' installed2
rsync -a own/ own3 && show own3 | cut -d' ' -f1-4
rm -r own own2 own3 sg
""".strip().split("\n")

# Symbolic links, which the client follows and the server never does. Their times cannot be set.
LINKS = r"""
echo text > lf && ln -s lf l && cat l && readlink l && stat -c '%F %s %A' l
ln -s lf l
ln -sf none l && readlink l; cat l
ln -s round round && cat round
ln -s /etc/none out && readlink out; ls -l out | cut -c1-10; test -L out && test ! -e out
ln -s . here && ls here/lf && cat here/here/here/lf
ln -s "$(printf 'odd \377')" odd && readlink odd | od -c
ln -s "$(printf '%04095d' 0)" long && readlink long | wc -c; rm -f long
mkdir ld && echo x > ld/f && ln -s ld ldir && cat ldir/f && echo y > ldir/g && ls ldir/ && mv ldir moved && cat moved/g
ln -s f ld/fl && mv ld/fl . && readlink fl && mv fl lf && readlink lf
ln -s ../none ld/up && find . -type l -printf '%p %l\n' | sort && find -L ld -maxdepth 1 -printf '%P %y\n' | sort
rmdir here; ls moved
chown -h "$(id -u):$(id -g)" out && stat -c '%u %g' out
cp -d out copied && readlink copied && cp -r ld ld2 && find ld2 -printf '%P %y %l\n' | sort
cp -a ld ld3 2> /dev/null; find ld3 -printf '%P %y %l\n' | sort
tar -cf "$ELSEWHERE/l.tar" ld out here && mkdir lx && tar -xf "$ELSEWHERE/l.tar" -C lx && find lx -printf '%P %y %l\n' | sort && tar -df "$ELSEWHERE/l.tar" -C lx | grep -v 'Mod time'
rsync -rlpt --omit-link-times ld out here synced/ && find synced -printf '%P %y %l\n' | sort
git init -q lg && cd lg && git branch -q -M main && git config user.name a && git config user.email a@b && echo abc > f && ln -s f fl && ln -s none nl && git add . && git commit -q -m one && git status --porcelain && git ls-files -s
git clone -q lg lc && readlink lc/fl lc/nl && git -C lc status --porcelain && ln -sf other lc/fl && git -C lc status --porcelain && git -C lc checkout -q fl && readlink lc/fl
python3 -m venv --without-pip venv && venv/bin/python3 -c 'print(1)' && find venv -type l -printf '%P %l\n' | sort && rm -r venv
rm -rf ld ld2 ld3 lx lg lc synced && ls -l | awk '{ print $1, $9, $10, $11 }'
rm -f out odd here moved round l lf copied
""".strip().split("\n")

# Files by several names, with whatever attributes.
TWO_NAMES = r"""
echo one > ha && ln ha hb && cat hb
ln ha hb
mkdir hd; ln hd he
ln none he; ln ha hd/x/y; ln ha hb/x; ls hd
link ha hc && cat hc && unlink hc; cat hc
echo two >> ha && sleep 1.2 && cat hb && echo three >> hb && sleep 1.2 && cat ha
ln ha hd/x && ln ha hb hd/ && ls hd && cat hd/hb && mv hd/x . && cat x hd/ha && rm x
truncate -s 4 hd/ha && sleep 1.2 && cat ha && printf ONE | dd of=hb conv=notrunc status=none && sleep 1.2 && cat ha hd/ha
ln ha hc && (exec 3<> hc; rm hc; cat <&3; echo more >&3; ls; sleep 1.2; cat ha); ls
rm ha && cat hb && rm -r hd && cat hb && mv hb ha && cat ha && rm ha
""".strip().split("\n")

# The same with link counts and inode numbers, by which programs see that names are of one file.
HARD_LINKS = r"""
echo one > ha && names ha && ln ha hb && names ha hb && find . -samefile ha | sort
test "$(stat -c %i ha)" = "$(stat -c %i hb)" && test ha -ef hb && stat -c '%h %s' ha
chmod 600 ha && sleep 1.2 && stat -c '%a' hb && touch -d 2001-01-01 hb && sleep 1.2 && stat -c %y ha
ln ha hc && (exec 3<> hc; rm hc; cat <&3) && names ha hb
ln ha hb; ln -f ha hb; echo other > hd && ln -f ha hd && cat hd && names ha hb hd
mv ha hb; ls h?; names h?
cp hb hd; cp -l hb he && names hb hd he && rm hb && names h?
python3 -c "import os; os.rename('hd', 'he')"; ls h?; names h?; cat hd he
rm -f ha hb hd he
ln -s none hl && ln hl hm && names hl hm && readlink hm && rm hl && readlink hm && rm hm
mkdir -p ht/s && seq 9 > ht/a && ln ht/a ht/b && ln ht/a ht/s/c && echo x > ht/s/x && chmod 640 ht/a && touch -d 1999-12-31T23:59:59.5 ht/a ht/s/x && names ht && show ht/a ht/s/x
cp -al ht hal && names ht hal && show hal/s/x && rm -r hal && names ht
cp -a ht hca && names hca && show hca/b && cp -r ht hcr && names hcr && cp -aT hca hcr && names hcr
tar -cf "$ELSEWHERE/h.tar" ht && tar -tvf "$ELSEWHERE/h.tar" | grep -c 'link to' && mkdir hx && tar -xf "$ELSEWHERE/h.tar" -C hx && names hx && tar -df "$ELSEWHERE/h.tar" -C hx && show hx/ht/a
tar -xf "$ELSEWHERE/h.tar" -C hx && names hx
mkdir "$ELSEWHERE/hx" && tar -cf - ht | tar -xf - -C "$ELSEWHERE/hx" && (cd "$ELSEWHERE/hx" && names ht); rm -r "$ELSEWHERE/hx"
rsync -aH ht/ hr && names hr && show hr/s/x && rsync -aHi ht/ hr && rm ht/b && echo y > ht/b && rsync -aHi ht/ hr | cut -c1-2,12- && names hr
rsync -a --link-dest="$PWD/ht" ht/ hs && names ht hs
mv ht "$ELSEWHERE/ht" && (cd "$ELSEWHERE" && names ht) && mv "$ELSEWHERE/ht" ht && names ht
git init -q hg && cd hg && git branch -q -M main && git config user.name a && git config user.email a@b && seq 99 > f && mkdir d && echo e > d/e && git add . && git commit -q -m one
git clone -q --local hg hc && names hg/.git/objects hc/.git/objects && git -C hc fsck --no-progress && git -C hc status --porcelain && rm -rf hg && git -C hc log --format=%s && git -C hc gc -q && git -C hc fsck --no-progress
python3 -c "import os; os.mkdir('hp'); open('hp/a', 'w').write('x'); os.link('hp/a', 'hp/b'); os.replace('hp/a', 'hp/c'); print(sorted(os.listdir('hp')), os.stat('hp/b').st_ino == os.stat('hp/c').st_ino)" && names hp
seq 5 > hn && for n in $(seq 1 40); do ln hn hp/n$n; done && names hp | tail -1 && rm -r hp && names hn
python3 -c "import os; f = os.open('gone', os.O_RDWR | os.O_CREAT); print(os.fstat(f).st_nlink); os.unlink('gone'); print(os.fstat(f).st_nlink, os.write(f, b'x'), os.fstat(f).st_size)"
python3 -c "import os; f = os.open('gone', os.O_RDWR | os.O_CREAT); os.link('gone', 'kept'); os.unlink('gone'); print(os.fstat(f).st_nlink); os.close(f)"; sleep 1.2; names kept; rm kept
python3 -c "import os; f = os.open('gone', os.O_RDWR | os.O_CREAT); open('other', 'w').write('y'); os.rename('other', 'gone'); print(os.fstat(f).st_nlink, os.stat('gone').st_nlink)" && rm gone
rm -rf ht hca hcr hx hr hs hc hn && echo one > h1 && ln h1 h2 && names h1 h2
""".strip().split("\n")

# Names of any bytes, in a folder `bn`, one of them with each byte that a name can have: 254 of them.
NAMES = r"""
mkdir bn && python3 -c "import os; os.chdir('bn'); each = [bytes([n]) for n in range(1, 256) if n != 47]; [open(b'n' + one, 'w').write(str(one)) for one in each]; open(b''.join(each), 'w').write('all')" && ls bn | wc -l && ls bn | md5sum
find bn -type f -print0 | sort -z | md5sum && find bn -type f -printf '%f\0' | sort -z | md5sum && cat bn/n* | md5sum
python3 -c "import os; found = sorted(os.listdir(b'bn')); print(len(found), max(map(len, found)), found[:3], found[-3:])"
: > "$(printf 'bn/odd \377')" && test -e "$(printf 'bn/odd \377')" && test ! -e "$(printf 'bn/odd \376')" && ls -b bn | grep odd && rm "$(printf 'bn/odd \377')"
cat "$(printf 'bn/none \377')"
mv "$(printf 'bn/n\377')" "$(printf 'bn/m\376\377')" && cat "$(printf 'bn/m\376\377')" && mv -n "$(printf 'bn/m\376\377')" "$(printf 'bn/n\376')"; ls -b bn | tail -n 2
mkdir -p "$(printf 'bn/d\355\240\200/\303')" && echo x > "$(printf 'bn/d\355\240\200/\303/\377')" && find bn/d* -print0 | sort -z | od -c && cat bn/d*/*/*
mkdir "$(printf 'bn/d\355\240\200')"; rmdir "$(printf 'bn/d\355\240\200')"
(exec 3<> "$(printf 'bn/n\200')"; rm "$(printf 'bn/n\200')"; cat <&3; ls bn | wc -l)
cp -r bn bn2 && diff -r bn bn2 && find bn2 -print0 | sort -z | md5sum && rm -r bn2
tar -cf "$ELSEWHERE/n.tar" bn && tar -tf "$ELSEWHERE/n.tar" | sort | md5sum && mkdir bx && tar -xmf "$ELSEWHERE/n.tar" -C bx --no-same-owner --no-same-permissions && diff -r bn bx/bn && rm -r bx
rm -r bn && ls
""".strip().split("\n")

# The same with links and with attributes that are kept. The files of `git add` have names of each byte.
KEPT_NAMES = r"""
mkdir bn && python3 -c "import os; os.chdir('bn'); each = [bytes([n]) for n in range(1, 256) if n != 47]; [open(b'n' + one, 'w').write(str(one)) for one in each]; open(b''.join(each), 'w').write('all')"
ln -s "$(printf 'n\377')" "$(printf 'bn/l\200')" && cat "$(printf 'bn/l\200')" && readlink "$(printf 'bn/l\200')" | od -c && find bn -type l -printf '%f %l\n' | od -c && rm "$(printf 'bn/l\200')"
ln "$(printf 'bn/n\377')" "$(printf 'bn/\377')" && test "$(printf 'bn/n\377')" -ef "$(printf 'bn/\377')" && stat -c %h "$(printf 'bn/\377')"
find bn -depth -exec touch -d @900000000.25 {} + && chmod 640 "$(printf 'bn/n\376')" && touch -d @1000000000.5 "$(printf 'bn/n\376')" && stat -c '%a %y' "$(printf 'bn/n\376')"
cp -a bn bn2 && diff -r bn bn2 && show bn2 | cut -d' ' -f2- | sort | md5sum && rm -r bn2
rsync -a bn/ bs && diff -r bn bs && rsync -ai bn/ bs && rm "$(printf 'bs/n\240')" && rsync -ai bn/ bs | wc -l && rm -r bs
git init -q bg && cd bg && git branch -q -M main && git config user.name a && git config user.email a@b && cp -r ../bn/. . && git add . && git commit -q -m one && git status --porcelain && git ls-files -z | md5sum && git log --format=%H
git clone -q bg bc && diff -r --exclude=.git bg bc && git -C bc status --porcelain && git -C bc mv "$(printf 'n\377')" "$(printf 'moved \376')" && git -C bc status --porcelain && rm -rf bg bc
rm -r bn && ls
""".strip().split("\n")

# A pipe and a socket stand there already.
PIPES = """
ls -l pipe socket | cut -c1-10
stat -c '%F %a %t %T' pipe socket
cat pipe & echo through > pipe; wait
(seq 1 3 > pipe &) ; sort -r pipe
chmod 640 pipe && stat -c %a pipe
ln pipe pipe3 && test pipe -ef pipe3 && rm pipe3
mv pipe pipe2 && ls pipe2 && test -p pipe2
tar -cf - pipe2 2>&1 | tar -tvf - | cut -c1-10
rm pipe2 socket
""".strip().split("\n")

REFUSED = """
ln joined .fuse_hidden0
mkfifo made-pipe
ln -s joined joined-link; touch -h -d 2020-01-01 joined-link
setfattr -n user.a -v 1 joined
fallocate -l 100 allocated
""".strip().split("\n")

REFUSED_WITH_FIXED = """
touch joined
touch -d 2020-01-01 joined
chmod 600 joined
chown 1:1 joined
cp -p joined kept
""".strip().split("\n")

#!/bin/sh
# tools/explain in a copy of the repository's shape, with an rt that only says what it was asked and hands out a library. Run by
# test.sh, from the root of the repository, after build.sh. The copy stands outside of it: `rt ci` refuses files of a crate elsewhere.
set -u
root=$(pwd)
work=$(mktemp -d)
work=$(readlink -f -- "$work")
trap 'rm -rf "$work"' EXIT
copy=$work/copy
mkdir -p "$work/bin" "$work/elsewhere" "$copy/tools/layout-text" "$copy/bindings/rust" "$copy/crates/meaning/specs" "$copy/crates/layout_c"
cp tools/explain "$copy/tools/explain"
cp -R tools/layout-text/src "$copy/tools/layout-text/src"
cp -R bindings/rust/src "$copy/bindings/rust/src"
cp -R include "$copy"
printf 'names:   # a line\nmeaning: names\nother: meaning\nlayout_c staticlib: meaning   # the calls\n' > "$copy/crates.txt"
echo 'a law' > "$copy/crates/meaning/specs/Law.antt"
cp samples/winch.layout "$work/elsewhere/set.layout"

# This rt proves nothing: it prints what rt prints, and fails where the file `wrong` is there.
cat > "$work/bin/rt" <<RT
#!/bin/sh
echo "rt \$* in \${PWD#"$copy/"}" >> "$work/calls"
cat > /dev/null
for name in names meaning; do
  mkdir -p ../\$name/out
  echo "\$\$" > ../\$name/out/kept
  echo "fn \$name::call: proved"
  echo 'library core: modules loaded=2 checked=0'
  echo "crate \$name: modules loaded=3 checked=7"
  echo 'logic=proved functions=1 sum=12'
done
if [ -e "$work/wrong" ]; then
  echo 'crate bundle: modules loaded=3 checked=7'
  echo 'logic=not-proved'
  echo 'rt: the library bundle did not build, so nothing above it was checked' >&2
  exit 1
fi
mkdir -p out
echo 'a library' > out/liblayout_c.a
RT
# The program is the one that was built before.
cat > "$copy/tools/layout-text/build.sh" <<BUILD
#!/bin/sh
cd "$copy"
echo "build \$* over \$(cat "\$1")" >> "$work/calls"
cat > /dev/null
[ ! -e "$work/unbuilt" ] || { echo 'error: no such crate'; exit 7; }
cp "$root/tools/layout-text/target/layout-text" tools/layout-text/target/layout-text
BUILD
chmod +x "$work/bin/rt" "$copy/tools/layout-text/build.sh"
PATH=$work/bin:$PATH
failed=0

# after WHAT CODE CALLS [FILE]: runs $script in another folder, and looks at its exit code and at what it built.
script=$copy/tools/explain
after() {
  : > "$work/calls"
  (cd "$work/elsewhere" && "$script" "${4:-set.layout}") > "$work/out" 2> "$work/err" < "$work/elsewhere/set.layout"
  code=$?
  calls=$(tr '\n' ';' < "$work/calls")
  if [ "$code" -ne "$2" ] || [ "$calls" != "$3" ]; then
    failed=1
    echo "failed: $1: exit code $code, built: $calls"
    head -5 "$work/err"
  fi
}

# says WHERE TEXT: a text in what the last run printed.
says() {
  grep -qF -e "$2" "$work/$1" || { failed=1; echo "failed: not said: $2"; }
}

library='rt lib --cpu x86-64 in crates/layout_c;'
program='build crates/layout_c/out/liblayout_c.a over a library;'
after 'help' 0 '' --help
says out 'Usage: tools/explain'
after 'the first run' 0 "$library$program"
says out 'The set passes: 8 definitions'
says err 'the library: 3 crates'
says err '  1: names proved'
says err '  2: meaning proved'
says err 'The library is built.'
grep -q 'call: proved' "$work/err" && { failed=1; echo 'failed: the prover is too loud'; }
after 'the second run' 0 ''
[ ! -s "$work/err" ] || { failed=1; echo 'failed: a run that builds nothing says something'; }
printf x > "$copy/crates/layout_c/out/liblayout_c.a"
after 'a library of one byte' 0 "$library"
says out 'The set passes'
rm "$copy/crates/layout_c/out/liblayout_c.a"
after 'no library' 0 "$library"
echo 'a law on standard input' > "$copy/crates/meaning/specs/Law.antt"
echo '//' >> "$copy/include/layout.h"
after 'the set is standard input' 0 "$library$program" -
says out 'The set passes: 8 definitions'
echo 'another law' > "$copy/crates/meaning/specs/Law.antt"
after 'a law was changed' 0 "$library"
# Older than what was built, as a file from an archive may be.
echo 'an old law' > "$copy/crates/meaning/specs/Law.antt"
touch -t 200001010000 "$copy/crates/meaning/specs/Law.antt"
after 'an old law came back' 0 "$library"
echo 'a third' > "$copy/crates/meaning/specs/Third.antt"
after 'a law came' 0 "$library"
rm "$copy/crates/meaning/specs/Third.antt"
after 'a law went' 0 "$library"
echo >> "$copy/crates.txt"
after 'crates.txt was changed' 0 "$library"
for file in bindings/rust/src/lib.rs include/layout.h tools/layout-text/src/words.rs; do
  echo '//' >> "$copy/$file"
  after "$file was changed" 0 "$program"
done
printf x > "$copy/tools/layout-text/target/layout-text"
after 'a program of one byte' 0 "$program"
after 'all is built' 0 ''

# What rt keeps of a crate is none of its sources.
echo 'more' > "$copy/crates/meaning/out/kept"
after 'rt kept something' 0 ''
mkdir -p "$copy/crates/meaning/specs/out"
echo 'a law' > "$copy/crates/meaning/specs/out/Law.antt"
after 'a law in a folder of that name' 0 "$library"
rm -r "$copy/crates/meaning/specs/out"
after 'it went' 0 "$library"

# By a symbolic link it works in its own repository, and leaves the folder of the link alone.
mkdir -p "$work/link/bin" "$work/link/crates/layout_c/out"
: > "$work/link/crates/file"
echo 'not ours' > "$work/link/crates/layout_c/out/liblayout_c.a"
ln -s "$copy/tools/explain" "$work/link/bin/first"
ln -s first "$work/link/bin/explain"
script=$work/link/bin/explain
after 'by a link' 0 ''
says out 'The set passes: 8 definitions'
after 'help by a link' 0 '' --help
says out 'Usage: tools/explain'
# A copy outside of a repository builds and removes nothing.
mkdir "$work/link/tools"
cp tools/explain "$work/link/tools/explain"
script=$work/link/tools/explain
after 'no repository' 3 ''
says err "$work/link is not the repository: it has no crates.txt"
grep -q 'not ours' "$work/link/crates/layout_c/out/liblayout_c.a" || { failed=1; echo 'failed: a strange library is gone'; }
script=$copy/tools/explain

# Names of files that a shell would take apart.
odd="$copy/crates/meaning/specs/It's \"a\"  law.antt"
echo 'a law' > "$odd"
after 'a name with spaces and quotes' 0 "$library"
after 'the same' 0 ''
echo 'its change' > "$odd"
after 'its change' 0 "$library"
rm "$odd"
after 'it went' 0 "$library"

# Where the sums cannot be taken, nothing is built and nothing removed.
mv "$copy/crates" "$copy/away"
after 'no sources' 3 ''
says err 'the checksums cannot be taken of: crates crates.txt'
[ -f "$copy/away/layout_c/out/liblayout_c.a" ] || { failed=1; echo 'failed: the library is gone'; }
mv "$copy/away" "$copy/crates"
printf '#!/bin/sh\nexit 1\n' > "$work/bin/cksum"
chmod +x "$work/bin/cksum"
after 'no cksum' 3 ''
says err 'the checksums cannot be taken'
[ -f "$copy/crates/layout_c/out/liblayout_c.a" ] || { failed=1; echo 'failed: the library is gone'; }
rm "$work/bin/cksum"
after 'all is there again' 0 ''

# What is not built is told, and not taken the next time.
echo 'a wrong law' > "$copy/crates/meaning/specs/Law.antt"
: > "$work/wrong"
after 'a law that is not proved' 3 "$library"
says err 'bundle NOT PROVED'
says err 'the library was not built (status 1)'
says err 'rt: the library bundle did not build'
[ ! -s "$work/out" ] || { failed=1; echo 'failed: an answer without a library'; }
after 'once more' 3 "$library"
rm "$work/wrong"
after 'proved again' 0 "$library"
: > "$work/unbuilt"
echo '//' >> "$copy/include/layout.h"
after 'a program that is not built' 3 "$program"
says err 'layout-text was not built (status 7)'
says err 'error: no such crate'
rm "$work/unbuilt"
after 'built again' 0 "$program"
[ "$failed" -eq 0 ] && echo 'explain: all as due'
exit "$failed"

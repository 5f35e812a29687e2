#!/usr/bin/env bash
# bin/routes: the text of every sample, from a file, from standard input and behind a million bytes of other programs; wrong use and how it is answered; and
# when the program is built. Wants crates/derowlas/out/derowlas, which `rt ci` builds, or `rt run` in crates/derowlas. A line for each check that fails; the
# last is 'N passed, M failed'.
set -u
cd "$(dirname "$0")/.." || exit 2

passed=0
failed=0
made=$(mktemp -d) || exit 2
trap 'rm -rf "$made"' EXIT
: >"$made/nothing"
# the last answer: what was printed, what was said on standard error, and its status
out=$made/out
err=$made/err
status=0

# check WHAT COMMAND..: one check, which passes where the command does
check() {
  local what=$1
  shift
  if "$@"; then
    passed=$((passed + 1))
  else
    failed=$((failed + 1))
    printf 'failed: %s (status %s)\n' "$what" "$status"
  fi
}

# ask COMMAND..: has it answer
ask() {
  "$@" >"$out" 2>"$err"
  status=$?
}

# prints FILE: it answered, with this text
prints() { [ "$status" -eq 0 ] && [ ! -s "$err" ] && cmp -s "$out" "$1"; }

# refuses WORDS: it printed nothing, and the first line that it said begins so
refuses() { [ "$status" -eq 2 ] && [ ! -s "$out" ] && [[ $(head -n 1 "$err") == "$1"* ]]; }

# refuses_file WORDS: the same, and no other line
refuses_file() { refuses "$1" && [ "$(wc -l <"$err")" -eq 1 ]; }

# refuses_use WORDS: the same, and how it is used
refuses_use() { refuses "$1" && grep -q '^usage: routes ' "$err"; }

# shows_use: it printed how it is used
shows_use() { [ "$status" -eq 0 ] && [ ! -s "$err" ] && grep -q '^usage: routes ' "$out"; }

if [ ! -x crates/derowlas/out/derowlas ]; then
  check 'crates/derowlas/out/derowlas is there: rt run in crates/derowlas builds it' false
  printf '%s passed, %s failed\n' "$passed" "$failed"
  exit 1
fi
# built again here where it is older than its sources, so that no answer below is kept waiting
bin/routes "$made/nothing" >"$out"

# ---- the samples

head -c 1000000 /dev/zero | tr '\0' '\1' >"$made/others"
for sheet in samples/*.sheet; do
  text=${sheet%.sheet}.txt
  cat "$made/others" "$sheet" >"$made/long"
  ask bin/routes "$sheet"
  check "$sheet" prints "$text"
  ask bin/routes <"$sheet"
  check "$sheet on standard input" prints "$text"
  ask bin/routes - <"$sheet"
  check "$sheet on standard input, asked for by -" prints "$text"
  ask bin/routes "$made/long"
  check "$sheet behind a million bytes" prints "$text"
  ask bin/routes < <(cat "$made/long")
  check "$sheet behind a million bytes, through a pipe" prints "$text"
done
for text in samples/*.txt; do
  check "$text has its sheet" [ -e "${text%.txt}.sheet" ]
done
echo 'refused 1 sheet' >"$made/refused"
ask bin/routes "$made/nothing"
check 'an empty file' prints "$made/refused"

# ---- from where it is called

ln -s "$PWD/bin/routes" "$made/link"
ask "$made/link" samples/line.sheet
check 'called by a link' prints samples/line.txt
ask env CDPATH=/ bin/routes samples/line.sheet
check 'with CDPATH in the environment' prints samples/line.txt

# ---- wrong use

for option in -h --help; do
  ask bin/routes "$option"
  check "$option" shows_use
done
ask bin/routes --version
check 'an option that there is not' refuses_use 'routes: there is no option --version'
ask bin/routes samples/line.sheet samples/ring.sheet
check 'two files' refuses_use 'routes: more than one file'
cp samples/line.sheet "$made/-line"
ask env -C "$made" "$PWD/bin/routes" -- -line
check 'a file whose name begins like an option' prints samples/line.txt
ask bin/routes "$made/none"
check 'a file that there is not' refuses_file "routes: $made/none: "
ask bin/routes samples
check 'a folder' refuses_file 'routes: samples: '
ask bin/routes ''
check 'a file without a name' refuses_file 'routes: : '
# a file that not even root can open: the terminal of a session that has none
ask setsid -w bin/routes /dev/tty
check "a file that can't be read" refuses_file 'routes: /dev/tty: '
ask bin/routes <samples
check 'a folder as standard input' refuses_file "derowlas: standard input can't be read"
ask bin/routes <&-
check 'a standard input that is closed' refuses_file 'routes: standard input is closed'
for what in samples/line.sheet --help; do
  : >"$out"
  bin/routes "$what" >/dev/full 2>"$err"
  status=$?
  check "an output that can't be written ($what)" refuses_file 'routes: the '
done

# ---- when the program is built: a project of its own, whose `rt` fails where there is a file `broken`, and finds no contents changed once it has built

project=$made/project
mkdir -p "$made/kit" "$project/bin" "$project/crates/derowlas/src"
cp bin/routes "$project/bin"
printf 'tail:\nother:\nderowlas: tail io\n' >"$project/crates.txt"
echo '// a source' >"$project/crates/derowlas/src/main.rt"
cat >"$made/kit/rt" <<END
#!/bin/sh
if [ "\$*" != run ] || [ "\${PWD##*/}" != derowlas ] || [ -e ../../broken ]; then echo 'logic=not-proved' >&2; exit 1; fi
mkdir -p out
[ -e out/derowlas ] || cp '$PWD/crates/derowlas/out/derowlas' out/derowlas
for crate in tail derowlas; do printf 'crate %s: modules loaded=0 checked=1\nlogic=proved functions=1\n' \$crate >&2; done
exec out/derowlas
END
chmod +x "$made/kit/rt"

# asks: a sheet's text in that project, with that `rt`
asks() { ask env PATH="$made/kit:$PATH" "$project/bin/routes" samples/line.sheet; }

# builds WHY: it answered, and said before that it builds the program, why, and how far it was
builds() {
  [ "$status" -eq 0 ] && cmp -s "$out" samples/line.txt && [[ $(head -n 1 "$err") == "routes: the program $1; "*' (2 crates, '* ]] &&
    [ "$(tail -n 2 "$err")" = $'routes: tail is proved\nroutes: derowlas is proved' ]
}

asks
check 'a program that is missing is built' builds 'is not built yet'
asks
check 'a program that was just built is not built again' prints samples/line.txt
for source in crates.txt crates/derowlas/src/main.rt crates/derowlas/src; do
  find "$project/crates.txt" "$project/crates" -exec touch -d '2 hours ago' {} +
  touch -d '1 hour ago' "$project/crates/derowlas/out/derowlas"
  asks
  check "a program that is newer than its sources is not built again ($source)" prints samples/line.txt
  touch -d '1 minute ago' "$project/$source"
  asks
  check "a program that is older than $source is built again" builds 'is older than its sources'
  asks
  check "a program that was built again is not built once more ($source)" prints samples/line.txt
done
touch "$project/broken"
touch -d '1 hour ago' "$project/crates/derowlas/out/derowlas"
touch "$project/crates.txt"
asks
check 'a program that can not be built again is not run' refuses 'routes: the program is older than its sources; '

printf '%s passed, %s failed\n' "$passed" "$failed"
[ "$failed" -eq 0 ]

#!/bin/sh
# A night of measuring, for cron or CI, in a git repository:
#
#     nightly.sh COMMAND [WORD]..        as in  nightly.sh go test -run '^$' -bench . -count 5 ./...
#
# COMMAND prints Go benchmark text, or one submission file of LNT, which names MACHINE and the whole hash of the commit.
# It is submitted at the commit that is checked out, and each series that it brought is segmented. A change for the
# worse that stands out of its series' noise, and that the store doesn't know yet, is raised there as a regression, so
# that each is told once; the first night of a store with a past tells all of it. Needs git and jq. A store is for one
# night at a time.
#
# Status 0: nothing new is worse. 1: something is, and is told on standard output. 2: the night came to nothing.
#
#     MACHINE     the machine's name: this host's
#     STORE       the store: perf.db
#     OUT         the folder for the night's script, its replies, its journal and its page, night.html: perf
#     RUN         the run's name: the time
#     LEAST       the per cent from which a change counts: 0
#     LNTTRACK    the program: the one above this folder
set -eu
status=2 work=    # until the night has come to something, whatever ends it
trap '[ -z "$work" ] || rm -r "$work"; exit $status' EXIT
trap 'exit 2' HUP INT TERM
here=$(cd "$(dirname "$0")" && pwd)
lnttrack=${LNTTRACK:-$here/../lnttrack}
machine=${MACHINE:-$(uname -n)} store=${STORE:-perf.db} out=${OUT:-perf} least=${LEAST:-0}
run=${RUN:-$(date -u +%Y-%m-%dT%H:%M:%SZ)}
work=$(mktemp -d)

fail() { echo "nightly.sh: $1" >&2; exit 2; }

# Answers a script on a store. A request that is refused ends the night, since nothing in a script may be refused.
play() {    # play STORE SCRIPT JOURNAL
  "$lnttrack" play --machines="$machine" --store="$1" "$2" > "$3" || fail "lnttrack ended with status $?"
  ! grep '^@[0-9]* E[0-9][0-9] ' "$2.out" >&2 || fail 'a request was refused, as told above'
}

[ $# -gt 0 ] || fail 'the command that measures is missing, as in  nightly.sh go test -bench . -count 5 ./...'
command -v jq > /dev/null || fail 'jq is missing'
git rev-parse --verify -q HEAD > /dev/null || fail 'this is no git repository with a commit'
[ "$(git rev-parse --is-shallow-repository)" = false ] || fail 'this clone is shallow, so its commits have no numbers'
mkdir -p "$out"

# Texts of JSON as a script spells names.
spell='def spell: [explode[] | [.] | implode as $c
  | if .[0] > 32 and .[0] < 127 and .[0] != 37 and .[0] != 44 then $c else $c | @uri end] | add;'
machine=$(printf %s "$machine" | jq -Rrs "$spell spell")
run=$(printf %s "$run" | jq -Rrs "$spell spell")
export machine

# 1. The commits, numbered by their place on this branch, and what was measured.
"$@" > "$work/body" || fail "measuring ended with status $?"
count=$(git rev-list --first-parent --count HEAD)
git rev-list --first-parent --max-count 1000 HEAD |
  awk -v count="$count" '{ print "commit", ENVIRON["machine"], count - NR + 1, $1 }' > "$work/submit"
bytes=$(($(wc -c < "$work/body")))
case $(head -c 1 "$work/body") in
  '{') printf 'submit lnt %s %s %d\n' "$machine" "$run" "$bytes" ;;
  *) printf 'submit go %s %s %s %d\n' "$machine" "$(git rev-parse HEAD)" "$run" "$bytes" ;;
esac > "$work/line"
cat "$work/line" "$work/body" >> "$work/submit"
echo >> "$work/submit"

# 2. All is tried on a copy of the store first. The series that were measured have more samples after the submission.
for part in '' -wal; do
  if [ -e "$store$part" ]; then cp "$store$part" "$work/copy.db$part"; fi
done
printf 'report %s json\n' "$machine" > "$work/report"
cat "$work/report" "$work/submit" "$work/report" > "$work/try"
play "$work/copy.db" "$work/try" "$work/try.journal"
grep '^{' "$work/try.out" | jq -rs "$spell"' def key: [.test, .metric] | tojson;
  (.[0].series | map({ key: key, value: .samples }) | from_entries) as $before | .[1].series[]
  | select(.samples != $before[key]) | [(.test | spell), (.metric | spell), .positions] | join(" ")' > "$work/series"
[ -s "$work/series" ] || fail 'no sample is new'

# 3. Ten squares of the noise of each series that has three positions, as calibrations on another copy tell it. A metric
#    that has no penalty yet gets the middle one of these, once a series of it has ten positions.
cp "$work/copy.db" "$work/noise.db"
awk '$3 >= 3 { print "calibrate", ENVIRON["machine"], $1, $2, 10 }' "$work/series" > "$work/noise"
play "$work/noise.db" "$work/noise" "$work/noise.journal"
awk '$3 >= 3' "$work/series" | paste -d ' ' - "$work/noise.out" | awk '{ print $1, $2, $3, $7 }' > "$work/noises"
awk '
  FILENAME == ARGV[1] && $1 == "machine" { mine = $2 "" == ENVIRON["machine"] "" }
  FILENAME == ARGV[1] && mine && $3 == "tune" { tuned[$4] }
  FILENAME == ARGV[1] { next }
  $3 >= 10 && !($2 in tuned) { print $2, $4 }' "$work/try.journal" "$work/noises" | sort -k 1,1 -k 2,2n | awk '
  { all[$1] = all[$1] " " $2; n[$1]++ }
  END {
    for (metric in n) {
      split(all[metric], one, " ")
      print "tune", ENVIRON["machine"], metric, one[int((n[metric] + 1) / 2)]
    }
  }' > "$work/tunes"

# 4. What changed, and which changes for the worse are sure, and meet no regression of their series that was raised
#    before. A change is sure, as in the page, where its squared step, times a b / (a + b) of the positions before and
#    after it, is at least twenty squares of the noise, or where there is none.
awk '{ print "segment", ENVIRON["machine"], $1, $2; print "changes", ENVIRON["machine"], $1, $2 }' "$work/series" \
  > "$work/segment"
cat "$work/tunes" "$work/segment" > "$work/ask"
play "$work/copy.db" "$work/ask" "$work/ask.journal"
awk -v least="$least" '
  BEGIN { machine = ENVIRON["machine"] "" }
  FILENAME == ARGV[1] { noise[$1 " " $2] = $4; next }
  FILENAME == ARGV[2] {
    if ($1 == "machine") mine = $2 "" == machine
    else if (mine && $3 == "commit") number[$5] = $4
    else if (mine && $3 == "raise") { n = ++raised[$4 " " $5]; low[$4 " " $5, n] = $6; high[$4 " " $5, n] = $7 }
    else if (mine && $3 == "publish") for (n = 1; n <= $9; n++) cut[$4 " " $5, n] = $(9 + n)
    next
  }
  FILENAME == ARGV[3] { series[FNR] = $1 " " $2; next }
  left == 0 && $2 == "segmented" { s = series[++at]; cut[s, 0] = 0; cut[s, $10 + 1] = $8 }
  left == 0 { if ($2 == "changes") { left = $6; change = 0 } next }
  {
    left--; change++
    if ($5 != "regression" || !(s in noise)) next
    a = cut[s, change] - cut[s, change - 1]; b = cut[s, change + 1] - cut[s, change]
    point = index($4, "."); step = ($4 - $3) * 10 ^ (point ? length($4) - point : 0)
    if (noise[s] > 10 && step * step * a * b / (a + b) < 2 * noise[s]) next
    by = $3 + 0 ? 100 * ($4 - $3) / ($3 < 0 ? -$3 : $3) : 100
    known = (by < 0 ? -by : by) < least
    for (n = 1; n <= raised[s]; n++)
      if (low[s, n] + 0 < number[$2] + 0 && number[$1] + 0 < high[s, n] + 0) known = 1
    if (known) next
    printf "regress %s %s %d\n", machine, s, change
    printf "# %+.1f %% %s on %s, in %.10s..%.10s\n", by, s, machine, $1, $2
  }' "$work/noises" "$work/ask.journal" "$work/series" "$work/ask.out" > "$work/regress"

# 5. The same on the store itself, at once, with the new regressions; and the page of it.
cat "$work/submit" "$work/tunes" "$work/segment" "$work/regress" > "$out/night.script"
play "$store" "$out/night.script" "$out/night.journal"
"$here/../view/page" "$out/night.journal" > "$out/night.html"
if [ -s "$work/regress" ]; then
  echo "$(grep -c '^#' "$work/regress") new for the worse: $out/night.html"
  sed -n 's/^# /  /p' "$work/regress"
  status=1
else
  echo "nothing new is worse: $out/night.html"
  status=0
fi

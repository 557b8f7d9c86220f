#!/usr/bin/env bash
# Tries each mutant of the crates that are named, or of all, by itself. An edit of crates/NAME/must-fail holds the mutants of the
# crate, each of which begins with a line `mutant: NAME`, and after a line `left out:` what spares the gate the functions that no
# mutant turns or calls (docs/GATE.md). The gate tries the mutants of an edit at once, which shows that one of them at least is
# refused. Here each is an edit of its own with nothing left out, in a clone of what is committed, over what earlier checks kept;
# and the crate with what is left out, and no mutant, has to be proved. The last line is `N passed, M failed`.
set -u
cd "$(dirname "$0")/.." || exit 2
clone=$(mktemp -d) || exit 2
trap 'rm -rf "$clone"' EXIT
git clone -q . "$clone/tree" && cd "$clone/tree" || exit 2

# Puts each mutant of the edits in a folder into a file of its own in another one, and what they leave out into `left_out.edit`.
part() {
  awk -v folder="$2" '
    /^mutant: / { one = folder "/" substr($0, 9) ".edit" }
    /^left out: / { one = folder "/left_out.edit" }
    one { print > one }
  ' "$1"/*.edit
}

names=("$@")
if [ ${#names[@]} = 0 ]; then
  for folder in crates/*/must-fail; do names+=("$(basename "$(dirname "$folder")")"); done
fi
passed=0 failed=0
for name in "${names[@]}"; do
  mv "crates/$name/must-fail" "$clone/$name" && mkdir "crates/$name/must-fail" || exit 2
  part "$clone/$name" "crates/$name/must-fail"
  mutants=$(cat "$clone/$name"/*.edit | grep -c '^mutant: ')
  said=$(rt must-fail "$name" 2>&1)
  refused=$(grep '^rt: must-fail .*: refused, as it must be' <<<"$said" | grep -vc '/left_out.edit: ')
  grep '^rt: must-fail ' <<<"$said" | grep -v ': refused, as it must be\|/left_out.edit: NOT REFUSED'
  echo "$name: $refused of $mutants refused"
  ((passed += refused, failed += mutants - refused))
  [ -e "crates/$name/must-fail/left_out.edit" ] || continue
  if grep -q '/left_out.edit: NOT REFUSED' <<<"$said"; then ((passed += 1)); else echo "$name: not proved without what is left out"; ((failed += 1)); fi
done
echo "$passed passed, $failed failed"
[ "$failed" = 0 ]

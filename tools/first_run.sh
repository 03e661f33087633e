#!/usr/bin/env bash
# Builds the program `branch`, where it is not built yet, and runs it on the sample steps:
#
#     bash tools/first_run.sh
set -u -o pipefail

say() {
  echo "first_run.sh: $1"
}

fail() {
  say "$1" >&2
  exit 1
}

[ $# -eq 0 ] || fail "it takes no arguments"
here=${BASH_SOURCE[0]}
cd "$([[ $here == */* ]] && echo "${here%/*}/.." || echo ..)" || fail "the top of the repository cannot be entered"
sample=tests/samples/branch.txt
program=crates/branch/out/branch

for needed in rt python3; do
  type -P "$needed" > /dev/null || fail "$needed is missing: it must be found by PATH"
done
[ -r crates.txt ] && [ -r "$sample" ] || fail "crates.txt and $sample must stand at the top of the repository"

# The crates that branch is built of: itself and those that crates.txt names behind one of them, where they stand here.
crates=(branch)
for ((at = 0; at < ${#crates[@]}; at++)); do
  while read -r name below; do
    [ "$name" = "${crates[at]}:" ] || continue
    for one in $below; do
      [[ ! -d crates/$one || " ${crates[*]} " == *" $one "* ]] || crates+=("$one")
    done
  done < crates.txt
done

# Whether the program is there, and no file that it is built of is newer.
is_built() {
  local crate file
  [ -x "$program" ] && [[ ! crates.txt -nt $program ]] || return 1
  shopt -s globstar nullglob
  for crate in "${crates[@]}"; do
    for file in "crates/$crate"/{src,specs,proofs}/**; do
      [[ -d $file || ! $file -nt $program ]] || return 1
    done
  done
}

if is_built; then
  say "branch is built already, and newer than its sources: $program"
else
  say "rt now proves and builds branch and the crates that it stands on, ${#crates[@]} crates in all: ${crates[*]}"
  say "with nothing built before this takes some 6 to 8 minutes on four processors; meanwhile rt says how far it is"
  (cd crates/branch && rt run < /dev/null > /dev/null) || fail "rt could not build branch; its lines above say why"
  [ -x "$program" ] || fail "rt ended well, but there is no $program"
  touch "$program"
  say "built in $((SECONDS / 60)) minutes and $((SECONDS % 60)) seconds: $program"
fi

say "the steps of $sample, made by tools/steps.py, as branch answers them, and then its three logs:"
python3 -B tools/steps.py < "$sample" | "$program" || fail "branch could not be run on $sample"

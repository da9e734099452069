#!/usr/bin/env bash
# places.sh [COMMIT]: counts the places that docs/DESIGN-PASS.md speaks of, in the sources of the commit, or of the working tree.
# With -l before it, lists them.
set -euo pipefail
cd "$(dirname "$0")/.."
list=; if [ "${1:-}" = -l ]; then list=yes; shift; fi
at=${1:-}
# NAME PATTERN: the lines of the sources that match
count() {
  local found
  found=$(git grep -nE "$2" $at -- 'crates/*/src/*.rt' || true)
  printf '%-58s %s\n' "$1" "$(printf '%s' "$found" | grep -c '' || true)"
  if [ -n "$list" ] && [ -n "$found" ]; then printf '%s\n' "$found" | sed -e "s/^$at://" -e 's/^/    /'; fi
}
count '1 a variant that says "nothing"' '^    (Nothing|Garbled),'
count '1 a field that says how it went' '^ *(pub )?(ok|more|refusal|answer): (bool|u8),'
count '1 a refusal or a place as a number, 0 for none' 'fn (note|judge[a-z_]*|first_no|send_[a-z]+|answer|[a-z]+_verdict|link|find)\(.*-> u(8|16)$'
count '1 a refusal written as a number' 'Refused\([0-9]+\)'
count '1 a bool for whether what was written had room' 'fn .*&mut .*-> bool'
count '1 a kind as a number' 'fn .*\b(kind|which): u8|fn (has_name|find|is_named)\(.*\bk: u8|fn (chare_byte|number_of)\(.*\bi: u8|kind: usize'
count '1 a number that stands for an error' 'NO_DIGIT: usize|fn number\(got'
count '2 slice and array of one function' 'fn [a-z]+_on\(s?:? ?[^)]*&mut \[u(8|64)\]'
count '3 while' '^ *while '
count '3 loop' '^ *loop '
count '4 a field copied by hand' '^ +[a-z_]+: e\.[a-z_]+,$'
count '4 small functions that the library has' 'fn (least|at_most|copy|clear|copy_over|both|wide|narrow|two_bytes|bit|previous)\('
count '4 an equality as a match or a function' 'fn (is_down|is_normal|is_catching_up|worked|admitted|is_accepted|is_asked|is_unticketed|has_no_ticket|both_up)\('
count '5 the length of the store' 'length s\.(now|old) ≡ STORE'
count '5 the length of a memory' 'length [a-z]\.(now|old) ≡ MEMORY'
count '5 the length of a head' 'HEAD ≤ length'
count '5 the length of a row, a note list, the wire, a line' 'length [a-z]+\.(now|old) ≡ (ROW|ROWS|PACKETS|NOTELIST|LINE|SLOTS)'
count '5 a job line in range' 'job_in_range \(decoded line\.now\) ≡ true'
count '5 kind, sender, receiver and SN side by side' 'sender: u8, receiver: u8, sn: u16'
count '6 a buffer with its length' '^ *(pub )?len: u(16|size),|line: &mut \[u8(; LINE)?\], n: usize|out: &mut \[u8\], at: usize'
count '6 parallel arrays' 'before: &(mut )?\[u16\], sent|pub (low|high): u64'
count '7 an enum, a number or a flag that says which step to run' 'enum Leaving|which: u8|crash: bool'

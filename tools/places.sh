#!/usr/bin/env bash
# Counts the places in the code that docs/DESIGN-PASS.md goes through, kind by kind, in the folder given or, with none, in
# this repository. With SHOW=1 it lists them too.
cd "${1:-$(dirname "$0")/..}" || exit 1
place() {
    found=$(grep -nE "$2" crates/*/src/*.rt)
    printf '%s: %s\n' "$1" "$(printf '%s' "$found" | grep -c .)"
    [ -z "${SHOW:-}" ] || [ -z "$found" ] || printf '%s\n' "$found" | cut -c 1-140 | sed 's/^/    /'
}
place '1 an answer, or none and no reason' '\) -> Option<(Side|Elasticity|Step|i64|Option<usize>)>|of\(.*\) -> Option<'
place '1 a result or an option mapped by hand' 'None => None,|Some\([a-z]+\) => Some\(|Err\(_fault\) => (return )?(None|unreachable)|Ok\(None\) => (return None|None|unreachable)|Err\(fault\) => Err\(BookFault::in_row'
place '1 a flag, or a number for a kind' 'pub (same|due|number): |extern "C" fn|^pub type Fault'
place '2 numbers read and written by width' 'fn (read|write)_[iu](8|16|32|64)\('
place '2 quarters of each kind' 'fn (quarter|quarters|write_quarter)\(text|fn (maxima|limits)\(|fn [a-z]*_offers\('
place '2 filing by kind' 'pub fn (bid|need|border)\(|pub struct (Filed|Begun|Joined) \{'
place '2 tests and sums of three and four' 'fn (all_four|all_three|add_four)\('
place '3 loops that count, or take by hand' "^\s*('[a-z]+: )?(for .* in [0-9a-z_.]*\.\.|while )"
place '3 four elements by their names' 'let \[[a-z_]+, [a-z_]+, [a-z_]+, [a-z_]+\] = '
place '4 conversions by methods' 'pub fn (of|byte)\('
place '4 names and tests by hand' 'fn [a-z]+_name\(|fn step_quarters\(|matches!\(self'
place '5 prices within the cap as a clause' 'Priced prices\.bytes'
place '5 fair terms as a clause' 'requires fair'
place '5 room in a text as a clause' 'requires \{ (at \+|[0-9]+ ≤ length)'
place '5 small numbers as a clause' 'requires.*Within [0-9]'
place '5 length, place and rows apart' 'len: usize, at: usize|at: usize, rows: usize'
place '6 an array with its length beside' 'members: \[Bid; 8\]'
place '7 a match on the step' 'match (self\.fields\.)?step '

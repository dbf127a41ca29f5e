#!/usr/bin/env bash
# Lists the lines of crates/*/src at which an older form may stand, for points 1 to 7 of docs/DESIGN-PASS.md.
# A line that is listed is a candidate: the page says of each what became of it.
#
# usage: tools/places.sh [POINT]     all points, or one; run at the top of the repository
cd "$(dirname "$0")/.." || exit 1
src=(crates/*/src/*.rt)

seek() { # POINT NAME PATTERN
    [ -z "$only" ] || [ "$only" = "$1" ] || return
    local found
    found=$(grep -nE "$3" "${src[@]}" | grep -vE ':[0-9]+: *//')
    printf '## %s: %s: %s\n' "$1" "$2" "$(printf '%s' "$found" | grep -c '')"
    printf '%s\n' "$found"
}

only=$1
seek 1 "own enums"           '^ *(pub |pub\(crate\) )?enum '
seek 1 "flags"               '^ *(pub )?[a-z_]+: bool,|[(,] *[a-z_]+: bool[,)]|let (mut )?[a-z_]+ = (true|false|match|[a-z_]+ &&)'
seek 1 "numbers for kinds"   'message_type: u16|fn number\(|: u8 = [0-9]+;|: u16 = [0-9]+;'
seek 2 "types"               '^ *(pub |pub\(crate\) )?struct '
seek 2 "names that stand twice" "fn ($(grep -hoE 'fn [a-z_0-9]+' "${src[@]}" | grep -vE 'fn (main|new)$' | sort | uniq -d | sed 's/fn //' | paste -sd'|'))[(<]"
seek 3 "loops"               '^ *(for .* in |while |loop \{)'
seek 4 "by hand"             'fn (is_)?same[a-z_]*[(<]|fn [a-z_]*before\(|fn (number|from|value|sign)_?[a-z_]*\(|impl .*(PartialEq|Ord|Clone|From|Display|Hash)\b|writeln!\('
seek 5 "clauses"             '^ *requires '
seek 5 "pairs of parameters" 'text: &(.a )?\[u8\], (at|layout|line|from): |count: usize, width: usize|row: usize, count: usize|current: usize, count: usize'
seek 6 "fixed buffers"       '\[u8; |\[0u?8?; |\[[a-z]+; [A-Z]+\]|^ *(pub )?len: |lens: '
seek 7 "switches"            'match (self|call|words|places|kind)\b|: fn\(|dyn '

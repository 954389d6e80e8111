#!/bin/bash
# Counts the places in src/ that the design pass looks at, point by point. Each line: point, what is counted, how many.
# With -v the places are shown too. Run it at the top of the repository.
show=$1
files() { git ls-files crates | grep -E '^crates/[^/]*/src/.*\.rt$' | grep -v '^crates/trials/' | sort; }
count() { # point, words, pattern
    local found
    found=$(files | xargs grep -nE -e "$3" /dev/null)
    printf '%s\t%s\t%s\n' "$1" "$2" "$(printf '%s' "$found" | grep -c '')"
    [ "$show" = -v ] && printf '%s\n' "$found" | sed 's/^/    /'
}
count 1 'enums of the repository' '^\s*(pub(\(crate\))? )?enum '
count 1 'flags in structs' '^\s*(pub(\(crate\))? )?[a-z_]+: bool,'
count 1 'functions whose result is a number that means nothing' '-> u8$'
count 1 'a Result of a flag that says whether to go on' '-> Result<bool, OutOfMemory>'
count 2 'bodies that check sites and first coordinator' 'sites < 2 '
count 2 'functions that place a slice in an array' 'fn placed'
count 2 'functions that fill memory with a record' 'fn fill\('
count 2 'functions that look for the end of a part of the text' 'fn (field|line)_end'
count 2 'functions that find a message by its kind' 'fn find_(start|message)\b'
count 2 'field readers that match the next token' 'match reader\.next\(\)'
count 2 'tables from an outcome to its state and kind' 'Outcome::Commit => \(?State'
count 2 'records written out field by field' '^\s+attempt: |^\s+attempt,$'
count 2 'plain twins of a struct in clauses' 'plain(_[a-z]+)? \(?[a-z]|planned |entry_read '
count 3 'loops' '^\s*(for|while|loop)\b'
count 3 'loops over an index' '^\s*for [a-z_]+ in .*\.\.'
count 4 'conversions by hand' 'fn (number|letter|from_letter|keyword_of|vote_of|is)\('
count 4 'texts written by hand' 'write!\('
count 4 'From by hand' 'impl From<'
count 5 'clauses with the world of net, vault and list' 'world (core|self)\.(old|now)'
count 5 'clauses with the bounds of the net' '(Bounded|Lasting) core|Near \('
count 5 'clauses with the view of a policy, a vault or a net' 'ballot (policy|self|result)|\(ballot |listing (self|result)|row_(sites|entries)|journal_stored|net\.(old|new)?\.?core|self\.(old|now|new)\.core'
count 5 'clauses that the rest of the text stays' 'keeps \{'
count 5 'clauses that the list is new or the net is' 'replicate 4096|Ok net\.core ≡ opening'
count 5 'parameters text, reader, list, net, first, policy, vault, core' '^\s*(mut )?(text|reader|list|net|first|policy|vault|core): '
count 6 'arrays of a fixed size' '\[[A-Za-z0-9]+; [A-Z0-9a-z_]+\]'
count 7 'matches' '\bmatch '

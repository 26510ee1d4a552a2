#!/bin/sh
# Lists the places in src/ that docs/DESIGN-PASS.md counts, point by point; a number after each list.
# A line is a place to look at, not yet a fault: the page says which were read as what.
cd "$(dirname "$0")/.." || exit 1
src() { git ls-files 'crates/*.rt' | grep '/src/' | sort; }
look() { # NAME PATTERN
    echo "== $1"
    src | xargs grep -nE -e "$2"
    echo "count $1: $(src | xargs grep -hE -e "$2" | wc -l)"
}
names() { src | xargs grep -hoE '^ *(pub(\(crate\))? )?fn [a-z_]+' | sed 's/.*fn //' | sort | uniq -d | grep -vxE 'new|from|drop|key|test|under|told|step|next'; }
look "1a enums" '^(pub(\(crate\))? )?enum '
look "1b flags" '\b[a-z_]+: bool(,|\))'
look "1c numbers for kinds, faults and refusals" '-> u8( \{)?$|Result<[^<>]*, (u8|u16|u32|usize)>'
look "1d none for want of memory" '-> Option<([A-Z][a-z]+)*(Book|Session)>'
look "1e options and results taken apart by hand" '^ *return None;|=> return None|None => None,|Err\(_\) => false|Ok\([a-z]+\) => Ok\([a-z]+\),|Some\([a-z]+\) => Ok\([a-z]+\),|None => Err\(|Err\(Stop::Wrong\('
echo "== 2 names of functions that stand twice"
names | tr '\n' ' '
echo
echo "count 2 names of functions that stand twice: $(names | wc -l)"
look "3 loops by an index, a counter or a rest" '^ *(for [a-z_]+ in [0-9a-z_]+\.\.|while )'
look "4a impls of Drop, PartialEq, Clone, Default, Display, Debug" '^impl.* (Drop|PartialEq|Clone|Default|fmt::Display|fmt::Debug) for'
look "4b equality and printing in functions" 'fn ([a-z_]+_)?(equal|same|word|text)(_word|_text|_nodes)?(<[^(]*>)?\(.*\) -> (bool|String|&|Result<String)'
look "4c fields copied one by one" '^ *[a-z_]+: (self|t|row)\.[a-z_]+,'
look "5 clauses with a bound on a length, a count or a start" '(requires|ensures)[a-z_ ]* \{.*(length [a-z.]+ (≡|≤) [0-9]+|≤ (27|256|320|640) ?\}|< (16|27|256|65536) ?\}|≤ length [a-z]+\.(now|old))'
look "6 arrays and lists with a count beside" '^ *(pub )?[a-z]+: (\[[A-Za-z]+; [0-9A-Z]+\]|Vec<usize>),|: &mut \[(NameNumber|Renaming|u32|u8|R)\]'
look "7 one-method traits and their structs" 'trait Test|impl.* Test<'

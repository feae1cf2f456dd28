#!/usr/bin/env bash
# Lines of src/ in which an older form may stand, counted for each point of docs/DESIGN-PASS.md. At the top of the repository; with a count's
# name behind it the lines themselves. A line is a place to look at, not a verdict.
set -u
want=${1:-}

count() {
    if [ -z "$want" ]; then
        printf '%-3s %3d  %s\n' "$1" "$(grep -rnE -- "$2" crates/*/src | wc -l)" "$3"
    elif [ "$want" = "$1" ]; then
        grep -rnE -- "$2" crates/*/src
    fi
}

count 1a '^ *(pub(\(crate\))? )?enum ' 'enums'
count 1b '^ +(pub )?[a-z_]+: bool,$|-> bool' 'flags: fields, parameters on a line, results'
count 1c '0x(60|81|68|69|62|6[aA])\b|9999|-> u(8|32) \{$' 'numbers for kinds and refusals'
count 1d ': Option<[A-Z][A-Za-z]*(<[^>]*>)?>,$|-> Option<' 'options: fields, parameters on a line, results'
count 3 '\b(while|loop) |\+= |saturating_add\(1\)|for _ in|enumerate' 'loops and counts by hand'
count 4a '=> (0x[0-9a-f_]+|[0-9]+|Ok\(Axis::A[0-7]\)),$' 'arms of conversion tables'
count 4b '^impl.* (From|TryFrom|PartialEq|Ord|Clone|Copy|Display|Debug|Error)(<.*>)? for ' 'impls of conversion, comparison, copying, printing'
count 4c 'push_str|to_digit|from_digit|DIGITS' 'text put together by hand'
count 5a '(514|1030|4096|538) ≤ length' 'lengths of memories in clauses'
count 6 '\[u8; [A-Z_0-9]+\]|\[0(u8)?; |\b(len|count|length|gathered): (usize|u32),$' 'arrays, and lengths in fields'
count 7 '\bdyn |\bfn\(|: (impl )?Fn(Mut|Once)?\(' 'dyn, function pointers, closures as parameters'

if [ -z "$want" ]; then
    printf '%-3s %3d  %s\n' 8a "$(git ls-files 'crates/*/proofs/*Answers.antt' | wc -l)" 'files of answers'
    printf '%-3s %3d  %s\n' 8b "$(git ls-files 'crates/*/proofs/*Answers.antt' | xargs cat | wc -l)" 'lines of answers'
    printf '%-3s %3d  %s\n' 8c "$(git ls-files 'crates/*/proofs/*.antt' | xargs cat | wc -l)" 'lines of proofs'
fi

# Point 5: functions with five parameters or more.
python3 - "$want" <<'PY'
import glob, re, sys

found = []
for path in sorted(glob.glob("crates/*/src/**/*.rt", recursive=True)):
    text = open(path, encoding="utf-8").read()
    for m in re.finditer(r"\bfn (\w+)(?:<[^(]*?>)?\(", text):
        depth, end = 1, m.end()
        while depth:
            depth += {"(": 1, "[": 1, "{": 1, ")": -1, "]": -1, "}": -1}.get(text[end], 0)
            end += 1
        parameters = [p for p in re.split(r",(?![^<(\[]*[>)\]])", text[m.end() : end - 1]) if p.strip()]
        if len(parameters) >= 5:
            found.append(f"{path}: {m.group(1)}, {len(parameters)}")
if sys.argv[1] == "5b":
    print("\n".join(found))
elif not sys.argv[1]:
    print(f"5b  {len(found):3d}  functions with five parameters or more")
PY

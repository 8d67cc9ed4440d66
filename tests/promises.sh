# shellcheck shell=bash
# shellcheck disable=SC2154 # data_records is of tests/checks.sh
# What the product promises, as a text of one line for each promise: docs/PROMISES.txt has it stored. A proof that breaks shows that a program no longer
# meets its contract; that a contract or a claim has become a weaker one breaks no proof, and only a comparison with the stored text shows it.

# shellcheck disable=SC2034 # for tests/checks.sh
stored_promises=docs/PROMISES.txt

# Prints a line for each item of a source that others can name: types, constants, calls, each call's clauses on lines of their own, and what the
# clauses' names mean. `rt fmt` puts each clause on a line of its own and the brace of a body that has clauses on another.
open_items() { # CRATE SOURCE MODULE
    awk -v place="$1/src/$3.rt" '
        function squeeze(text) {
            gsub(/[ \t]+/, " ", text)
            gsub(/^ | $/, "", text)
            return text
        }
        function conclude(    n) {
            if (name == "names") names = names squeeze(part[0])
            else for (n = 0; n <= clauses; n++) print place " " name ": " squeeze(part[n])
            name = attributes = ""
        }
        # the name of what a line begins, or nothing; in an impl after its type
        function begun(line) {
            sub(/^ *(pub )?(extern "C" )?/, "", line)
            sub(/^(fn|struct|enum|const|mod|trait|type|use|ghost) /, "", line)
            return match(line, /^[A-Za-z0-9_]+/) ? within substr(line, 1, RLENGTH) : "-"
        }
        # the type of an impl, with :: behind it
        function type_of(line) {
            sub(/^impl(<[^>]*>)? /, "", line)
            sub(/^[^{]* for /, "", line)
            return match(line, /^[A-Za-z0-9_]+/) ? substr(line, 1, RLENGTH) "::" : ""
        }
        { sub(/(^| )\/\/.*/, "") }
        /^impl/ { within = type_of($0) }
        /^\}/ && name == "" { within = "" }
        # derives and tactics promise nothing; an attribute may be broken over lines
        name == "" && (/^ *#\[/ || attribute != "") {
            attribute = attribute " " $0
            if (!/\]$/) next
            attribute = squeeze(attribute)
            if (attribute !~ /^#\[(derive|tactic)\(/) attributes = attributes attribute " "
            attribute = ""
            next
        }
        name == "" && (/^ *ghost use / || /^ +ghost [A-Za-z_]+ = / || /^ *pub (extern "C" )?(fn|struct|enum|const|mod|trait|type|use) / || attributes ~ /no_mangle/) {
            name = /^ *ghost use / ? "names" : begun($0)
            calls = / fn /
            clauses = 0
            part[0] = attributes
        }
        name == "" {
            attributes = ""
            next
        }
        {
            if (calls && /^ *(requires|ensures)[ {]/) part[++clauses] = ""
            ends = calls ? /^ *\{$/ || clauses == 0 && / \{$/ : /^\}/ || /;$/
            if (calls && ends) sub(/\{$/, "")
            part[clauses] = part[clauses] " " $0
            if (ends) conclude()
        }
        END {
            gsub(/ghost use /, " ", names)
            if (names != "") print place " names:" names
        }' "$2"
}

# Prints a line for each item of a file of specs/ and each field of a record, as written but for comments and the breaks of lines.
spec_items() { # CRATE FILE
    awk -v place="$1/${2#*/crates/"$1"/}" '
        function indent_of(line) {
            match(line, /^ */)
            return RLENGTH
        }
        function conclude() {
            gsub(/[ \t]+/, " ", item)
            sub(/^ /, "", item)
            if (sub(/^use /, "", item)) names = names " " item ";"
            else if (item != "") print place scope ": " item
            item = ""
        }
        { sub(/(^| )--.*/, "") }
        /^ *$/ { next }
        opening {
            item = item " " $0
            opening = !/ where$/
            if (!opening) conclude()
            next
        }
        item != "" && indent_of($0) > depth {
            item = item " " $0
            next
        }
        {
            conclude()
            depth = indent_of($0)
            if (depth == 0) scope = ""
            item = $0
        }
        /^(pub )?(record|module) / {
            scope = " " ($1 == "pub" ? $3 : $2)
            opening = !/ where$/
            if (!opening) conclude()
        }
        END {
            conclude()
            print place " names:" names
        }' "$2"
}

# Prints the open items of every library.
open_calls() { # ROOT
    local name file
    for name in $(crate_names "$1"); do
        [ -f "$1/crates/$name/src/lib.rt" ] || continue
        while IFS= read -r file; do
            file=${file#"crates/$name/src/"}
            open_items "$name" "$1/crates/$name/src/$file" "${file%.rt}"
        done < <(tree_paths "$1" -path "./crates/$name/src/*.rt")
    done
}

# Prints the items of every file of specs/ but those that only private contracts use.
definitions() { # ROOT
    local name file
    for name in $(crate_names "$1"); do
        while IFS= read -r file; do
            spec_items "$name" "$1/$file"
        done < <(tree_paths "$1" -path "./crates/$name/specs/*.antt" ! -path '*/Private/*' ! -name Private.antt ! -name Lib.antt)
    done
}

# Prints for each claim where it is proved.
proved_claims() { # ROOT
    local name claim data
    data=$(printf '%s\n' "${data_records[@]}")
    for name in $(crate_names "$1"); do
        while IFS= read -r claim; do
            has_entry "$data" "$name/$claim" ||
                echo "proved $name/$claim:" "$(proofs_of "$1/crates/$name" "${claim%.*}" "${claim##*.}")"
        done < <(plain_records "$1/crates/$name")
    done
}

# Prints how many wrong programs, controls and printed lines of cases each crate has.
counted_checks() { # ROOT
    local name folder
    for name in $(crate_names "$1"); do
        folder=$1/crates/$name
        [ ! -d "$folder/must-fail" ] || printf 'wrong programs of %s: %d\n' "$name" "$(crate_programs "$1" "$name" | wc -l)"
        [ ! -f "$folder/controls.edit" ] || printf 'controls of %s: %d, and %d functions without\n' "$name" \
            "$(edit_changes "$folder" "$folder/controls.edit" | wc -l)" "$(grep -c '^# none for ' "$folder/controls.edit")"
        [ ! -f "$folder/stdout" ] || printf 'lines printed by %s: %d\n' "$name" "$(wc -l <"$folder/stdout")"
    done
}

# Prints the declarations of the header's calls.
header_calls() { # ROOT
    [ ! -f "$1/embed/qh.h" ] || tr -s '\n ' ' ' <"$1/embed/qh.h" | grep -Eo '\w+ qh_\w+\([^)]*\);' | sed 's/^/header /'
}

# Prints the whole text but how many tests pass, which only a run tells.
promises() { # ROOT
    crate_lines "$1" | sed 's/^/crate /'
    definitions "$1"
    open_calls "$1"
    proved_claims "$1"
    counted_checks "$1"
    header_calls "$1"
}

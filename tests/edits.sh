# shellcheck shell=bash
# Reading wrong programs and controls. A file crates/NAME/must-fail/group_*.edit holds several wrong programs, each begun by a line `# PROGRAM: what
# it does wrong`; any other file there holds one, which has the file's name. crates/NAME/controls.edit holds edits that keep the meaning, and for a
# function that has none a line `# none for FUNCTION: REASON`. A function is named as its proof is in proofs/: MODULE/FUNCTION, or FUNCTION in the root, with
# TYPE/ before a method, MODULE then being that of its type.
# What the prover says of an edit is kept in target/must-fail/CRATE/LABEL.log, and what `rt must-fail` says of the controls in target/controls/CRATE.log, each
# beside a sum of all that it was said of.

# Prints CRATE/LABEL for each must-fail edit, the name by which rt calls it.
edit_labels() { # ROOT
    tree_paths "$1" -path './crates/*/must-fail/*.edit' | sed 's|^crates/\(.*\)/must-fail/\(.*\)\.edit$|\1/\2|'
}

# Prints `TYPE MODULE/` for each type of a crate, `TYPE` alone in the root.
type_modules() { # CRATE_FOLDER
    local file module
    while IFS= read -r file; do
        module=${file#"$1"/src/} && module=${module%.rt}/
        case $module in lib/ | main/) module='' ;; esac
        sed -nE "s|^(pub(\([a-z]+\))? )?(struct\|enum) ([A-Za-z0-9_]+).*|\4 $module|p" "$file"
    done < <(find "$1/src" -name '*.rt' | sort)
}

# Prints `PROGRAM FUNCTION` for each replacement of an edit that changes something, made one after the other as rt makes them; the function whose body
# it changes is `-` where the old text is in no body, or in several places.
edit_changes() { # CRATE_FOLDER EDIT_FILE
    local label=${2##*/}
    types=$(type_modules "$1") awk -v crate="$1" -v label="${label%.edit}" '
        function load(file,    line) {
            if (file in size) return
            size[file] = 0
            while ((getline line <(crate "/" file)) > 0) text[file, ++size[file]] = line
            close(crate "/" file)
        }
        # the module and the type of a line that begins an impl, the trait after it if there is one
        function impl_of(line,    trait) {
            sub(/^impl(<[^>]*>)? /, "", line)
            if (match(line, /^[^{]* for /)) {
                trait = substr(line, 1, RLENGTH - 5)
                line = substr(line, RLENGTH + 1)
                gsub(/.*::|[<>]/, "", trait)
            }
            match(line, /^[A-Za-z0-9_]+/)
            line = substr(line, 1, RLENGTH)
            return module_of[line] line trait "/"
        }
        # the function whose body holds `old`, at line `at`: rt fmt puts the last brace of a body under its `fn`
        function function_of(file,    module, n, line, name, indent, inside, found, times, within) {
            module = substr(file, length("src/") + 1)
            sub(/\.rt$/, "/", module)
            if (module == "lib/" || module == "main/") module = ""
            for (n = 1; n <= size[file]; n++) {
                line = text[file, n]
                if (line ~ /^impl/) within = impl_of(line)
                if (line == "}") within = ""
                if (line == indent "}") inside = 0
                if (index(line, old)) {
                    times++
                    at = n
                    found = inside ? within_name name : "-"
                }
                if (match(line, /^ *(pub(\([a-z]+\))? )?(extern "C" )?fn [a-z0-9_]+/)) {
                    name = substr(line, 1, RLENGTH)
                    within_name = within == "" ? module : within
                    indent = name
                    sub(/[^ ].*/, "", indent)
                    sub(/.* /, "", name)
                    inside = line ~ /\{$/
                } else if (line == indent "{" || index(line, indent ")") == 1 && line ~ /\{$/) inside = 1
            }
            return times == 1 ? found : "-"
        }
        BEGIN {
            grouped = label ~ /^group_/
            program = grouped ? "-" : label
            types = split(ENVIRON["types"], type, "\n")
            for (n = 1; n <= types; n++) {
                split(type[n], part, " ")
                module_of[part[1]] = part[2]
            }
        }
        grouped && /^# [a-z0-9_]+: ./ { program = substr($2, 1, length($2) - 1) }
        /^file: / {
            file = substr($0, 7)
            load(file)
        }
        /^old: / { old = substr($0, 6) }
        /^new:/ {
            new = substr($0, 5)
            sub(/^ /, "", new)
            at = 0
            name = function_of(file)
            if (new != old) print program, name
            where = index(text[file, at], old)
            if (at) text[file, at] = substr(text[file, at], 1, where - 1) new substr(text[file, at], where + length(old))
            old = ""
        }' "$2"
}

# Prints CRATE/LABEL for each edit that changes the bodies of functions alone: of these it can be seen where they are refused. Every file with several wrong
# programs is to be one.
edits_of_bodies() { # ROOT
    local edit changes
    while IFS= read -r edit; do
        changes=$(edit_changes "$1/crates/${edit%%/*}" "$1/crates/${edit%%/*}/must-fail/${edit#*/}.edit")
        [ -z "$changes" ] || grep -q ' -$' <<<"$changes" || echo "$edit"
    done < <(edit_labels "$1")
}

# Makes the replacements of an edit, each in the one place where its old text stands.
apply_edit() { # CRATE_FOLDER EDIT_FILE
    awk -v crate="$1" '
        function load(file,    line) {
            if (file in size) return
            size[file] = 0
            while ((getline line <(crate "/" file)) > 0) text[file, ++size[file]] = line
            close(crate "/" file)
        }
        /^file: / {
            file = substr($0, 7)
            load(file)
        }
        /^old: / { old = substr($0, 6) }
        /^new:/ {
            new = substr($0, 5)
            sub(/^ /, "", new)
            for (n = 1; old != "" && n <= size[file]; n++) {
                where = index(text[file, n], old)
                if (!where) continue
                text[file, n] = substr(text[file, n], 1, where - 1) new substr(text[file, n], where + length(old))
                break
            }
            old = ""
        }
        END {
            for (file in size)
                for (n = 1; n <= size[file]; n++) print text[file, n] > (crate "/" file)
        }' "$2"
}

# Prints a crate and those below it, by the lines of crates.txt.
crates_below() { # ROOT CRATE
    crate_lines "$1" | awk -v top="$2" '
        function visit(name,    n, i, deps) {
            if (name in seen) return
            seen[name] = 1
            n = split(below[name], deps, " ")
            for (i = 1; i <= n; i++) visit(deps[i])
            print name
        }
        {
            name = $1
            $1 = ""
            below[name] = $0
        }
        END { visit(top) }'
}

# Prints a sum of all that a check of a crate under an edit rests on: the kit, the crate and those below it, and the edit.
sum_of_try() { # ROOT CRATE EDIT_FILE
    local name part folders=()
    for name in $(crates_below "$1" "$2"); do
        for part in src specs proofs; do [ ! -d "$1/crates/$name/$part" ] || folders+=("crates/$name/$part"); done
    done
    (cd "$1" && rt version && crate_lines . && find "${folders[@]}" -type f -print0 | sort -z | xargs -0 sha256sum && sha256sum <"$3") | sha256sum
}

# Answers whether a log says what came of the same try of the same texts.
is_tried() { # LOG SUM
    [ -s "$1" ] && [ "$(cat "${1%.log}.sum" 2>/dev/null)" = "$2" ]
}

# Copies a crate and those below it, with the libraries that a check needs, so that edits can be made in the copy.
copy_crate() { # ROOT CRATE COPY
    local name part
    for name in $(crates_below "$1" "$2"); do
        mkdir -p "$3/crates/$name/out" && grep -E "^${name}[ :]" "$1/crates.txt" >>"$3/crates.txt" || return
        for part in src specs proofs out/rlib; do
            [ ! -d "$1/crates/$name/$part" ] || cp -R "$1/crates/$name/$part" "$3/crates/$name/$part" || return
        done
    done
}

# Tries an edit in the copy and keeps what is said: of wrong programs by a check of the crate with all of them made, of controls by `rt must-fail`.
try_edit() { # ROOT CRATE COPY EDIT LOG
    local edit=$1/crates/$2/$4 inside=$3/crates/$2 sum part
    sum=$(sum_of_try "$1" "$2" "$edit")
    ! is_tried "$5" "$sum" || return 0
    mkdir -p "${5%/*}" && rm -f "$5" "${5%.log}.sum" || return
    [ -d "$3" ] || copy_crate "$1" "$2" "$3" || {
        rm -rf "$3"
        return 1
    }
    for part in src specs; do
        [ ! -d "$1/crates/$2/$part" ] || { rm -rf "${inside:?}/$part" && cp -R "$1/crates/$2/$part" "$inside/$part"; } || return
    done
    if [ "$4" = controls.edit ]; then
        install -D "$edit" "$inside/must-fail/$4" && (cd "$3" && bare rt must-fail "$2") >"$5"
        grep -q ': NOT REFUSED: ' "$5" || return
    else
        apply_edit "$inside" "$edit" || return
        for _ in 1 2; do # one that was killed, most likely for memory, runs once more
            (cd "$inside" && bare rt check --jobs 1) >"$5"
            ! grep -q '^logic=' "$5" || break
        done
        grep -q '^logic=' "$5" || return
    fi
    printf '%s\n' "$sum" >"${5%.log}.sum"
}

# Tries all that one crate has to be tried with beside `rt ci`.
try_crate() { # ROOT CRATE COPY
    local label
    for label in $(edit_labels "$1" | sed -n "s|^$2/||p"); do
        try_edit "$1" "$2" "$3" "must-fail/$label.edit" "$1/target/must-fail/$2/$label.log"
    done
    ! grep -qs '^new:' "$1/crates/$2/controls.edit" || # only reasons why there are none
        try_edit "$1" "$2" "$3" controls.edit "$1/target/controls/$2.log"
}

# Prints the functions that the prover refuses for what they do: those with an error in their own answers, or of whose goals one was searched for and not
# proved, or may be false. That a step was not admitted, or that a function calls one that is not proved, follows from other errors and shows nothing.
# An error with one of the PHRASES is passed over.
refused_functions() { # CRATE LOG [PHRASE..]
    local phrases
    phrases=$(printf '%s\n' "${@:3}")
    phrases=$phrases awk -v crate="$1" '
        # a closure is one with the function that holds it: fn/FUNCTION/CLOSURE
        function holder_of(name) {
            if (sub(/^fn\//, "", name) || sub(/\/fn\//, "/", name)) sub(/\/[^\/]*$/, "", name)
            return name
        }
        function conclude(    n, shows) {
            gsub(/[ \t]+/, " ", text)
            shows = failing != "" && text !~ /was not admitted/
            for (n = 1; n <= phrases; n++) if (index(text, phrase[n])) shows = 0
            if (shows) print failing
            failing = text = ""
        }
        BEGIN { phrases = ENVIRON["phrases"] == "" ? 0 : split(ENVIRON["phrases"], phrase, "\n") }
        /^[^ ]/ { conclude() }
        /^(\.\/)?proofs\/[^ :]*\/(Answers|Invariants|Proof)\.antt:[0-9]+:[0-9]+: error: / {
            failing = $0
            sub(/^(\.\/)?proofs\//, "", failing)
            sub(/\/[A-Za-z]*\.antt:.*/, "", failing)
            failing = holder_of(failing)
        }
        { text = text " " $0 }
        /^note: src\/.*: it is not proved that .*; the facts known there allow values at which this goal is false/ { open = 1 }
        /^fn / {
            if ((/: no proof: .*`search` did not prove / || open && /: not proved/) && index($2, crate "::") == 1) {
                name = substr($2, length(crate) + 3, length($2) - length(crate) - 3)
                gsub(/::/, "/", name)
                print holder_of(name)
            }
            open = 0
        }
        END { conclude() }' "$2" | sort -u
}

# Prints the name of each wrong program of a crate, once for each file that has it.
crate_programs() { # ROOT CRATE
    local file
    for file in "$1/crates/$2/must-fail/"*.edit; do
        [ ! -f "$file" ] || edit_changes "$1/crates/$2" "$file" | cut -d ' ' -f 1 | sort -u
    done
}

# Prints `CRATE PROGRAM` for each wrong program.
program_names() { # ROOT
    local name
    for name in $(crate_names "$1"); do crate_programs "$1" "$name" | sed "s|^|$name |"; done
}

# Prints the functions of a crate whose bodies wrong programs change.
changed_functions() { # ROOT CRATE
    local file
    for file in "$1/crates/$2/must-fail/"*.edit; do
        [ ! -f "$file" ] || edit_changes "$1/crates/$2" "$file"
    done | cut -d ' ' -f 2 | grep -vx -e - | sort -u
}

# Prints the functions of a crate that its controls change, and those that are said to have none.
controlled_functions() { # CRATE_FOLDER
    edit_changes "$1" "$1/controls.edit" | cut -d ' ' -f 2
    sed -n 's/^# none for \([^ :]*\): ..*/\1/p' "$1/controls.edit"
}

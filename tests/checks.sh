# shellcheck shell=bash
# shellcheck disable=SC2154 # stored_promises is of tests/promises.sh
# What rt does not look at by itself. Each check takes the repository's root, and those of a run also the saved output of `rt ci`, that of the
# controls, or the numbers of tests that passed. It prints a line `FAIL: ..` for each fault and fails if there was one.

# The checks of the tree, those of what `rt ci` said, those of what the wrong programs and the controls came to, and that of the numbers, in the order in
# which tests/run asks them.
# shellcheck disable=SC2034
tree_checks=(
    crates_are_listed
    sources_are_in_crates
    claims_are_proved
    open_calls_are_total
    promises_are_stored
    edits_are_tried
    programs_are_apart
    functions_have_controls
    libraries_call_no_c
    crates_have_one_root
    outputs_are_right
)
# shellcheck disable=SC2034
run_checks=(
    rt_ci_is_content
    edits_were_refused
    crates_are_proved
    only_libc_is_assumed
    programs_ran
)
# shellcheck disable=SC2034
try_checks=(
    programs_were_refused
    edits_keep_the_form
)
# shellcheck disable=SC2034
control_checks=(controls_are_proved)
# shellcheck disable=SC2034
passed_checks=(tests_are_as_many)

# What the prover says where a proof no longer fits the text: such a refusal shows nothing about the meaning.
form_phrases=(
    'that can be named from here'
    'has no `'
    'is not in scope'
    'no occurrence of'
    'needs a function type'
    'needs a function (or path) type'
    'has no field'
    'expected type `tie.Need-'
    'has type `tie.Need-'
)

# The records of specs/ without parameters that are data, as CRATE/FILE.RECORD. Any other is a claim, or a set of worked examples.
data_records=(check_rules/Reply.Answer counts_rules/Form.Base counts_rules/Form.Form journal_rules/AddingUp.Journal laws/Refusal.Sentence laws/Reply.Reply
    sheet_rules/Input.Lines)

# Prints a fault and counts it in the variable `faults` of the check that calls this.
fault() {
    printf 'FAIL: %s\n' "$*"
    faults=$((faults + 1))
}

# Answers whether LIST, one entry to a line, holds ENTRY, letter by letter: a path is no regular expression.
has_entry() { # LIST ENTRY
    [[ $'\n'$1$'\n' == *$'\n'"$2"$'\n'* ]]
}

# Prints `NAME DEP DEP ..` for each crate that crates.txt lists, read as rt reads it.
crate_lines() { # ROOT
    awk '{ sub(/#.*/, "") } /:/ { sub(/( [^:]*)?:/, " "); $1 = $1; print }' "$1/crates.txt"
}

# Prints the name of each crate that crates.txt lists.
crate_names() { # ROOT
    crate_lines "$1" | cut -d ' ' -f 1
}

# Prints each path of the tree that meets find's expression; target/, .git/ and what rt makes in a crate's out/ are not the tree's.
tree_paths() { # ROOT EXPRESSION..
    (cd "$1" && find . \( -path ./target -o -path ./.git -o -path './crates/*/out' ! -path './crates/*/*/*' \) -prune -o \( "${@:2}" \) -print) |
        sed 's|^\./||' | sort
}

# A folder that is not listed is never proved, and rt says nothing of one that holds no source.
crates_are_listed() { # ROOT
    local faults=0 names name
    names=$(crate_names "$1")
    [ -n "$names" ] || fault "crates.txt lists no crate"
    for name in $names; do
        [ -d "$1/crates/$name" ] || fault "crates.txt lists $name, and there is no folder crates/$name"
    done
    while IFS= read -r name; do
        has_entry "$names" "${name#crates/}" || fault "$name is not listed in crates.txt"
    done < <(tree_paths "$1" -path './crates/*' ! -path './crates/*/*' ! -type f)
    [ "$faults" -eq 0 ]
}

# A source elsewhere reads as if it were proved, and nothing proves it.
sources_are_in_crates() { # ROOT
    local faults=0 names path
    local place='^crates/([^/]+)/(src/.+\.rt|specs/.+\.antt|proofs/.+\.antt)$'
    names=$(crate_names "$1")
    while IFS= read -r path; do
        if ! [[ $path =~ $place ]] || ! has_entry "$names" "${BASH_REMATCH[1]}"; then
            fault "$path is not in src/ (.rt), specs/ or proofs/ (.antt) of a listed crate"
        fi
    done < <(tree_paths "$1" ! -type d \( -name '*.rt' -o -name '*.antt' \))
    [ "$faults" -eq 0 ]
}

# Prints FILE.RECORD for each record without parameters in a crate's specs/.
plain_records() { # CRATE_FOLDER
    local file
    while IFS= read -r file; do
        sed -nE "s/ *--.*//; s|^(pub )?record ([^ (]+)( : Type.*)?\$|${file%.antt}.\2|p" "$1/specs/$file"
    done < <([ ! -d "$1/specs" ] || (cd "$1/specs" && find . -name '*.antt' | sed 's|^\./||' | sort))
}

# Prints `proofs/FILE NAME` for each definition in a crate's proofs/ that has the type of a claim, by the name that it has in its file of specs/.
proofs_of() { # CRATE_FOLDER FILE CLAIM
    local file
    while IFS= read -r file; do
        ! grep -qE "^use Rattle\.${1##*/}\.specs\.${2//\//\\.}\.\{(.*, )?$3(,.*)?\}\$" "$file" ||
            sed -nE "s|^(pub )?([a-z0-9_'-]+) : $3\$|proofs/${file##*/} \2|p" "$file"
    done < <(grep -lsE "^(pub )?[a-z0-9_'-]+ : $3\$" "$1"/proofs/*.antt)
}

# A file of proofs that no other imports can vanish unseen. One that stands in proofs/ itself is checked: rt refuses it if no `mod` line names it.
claims_are_proved() { # ROOT
    local faults=0 name claim data
    data=$(printf '%s\n' "${data_records[@]}")
    while IFS= read -r name; do
        ! grep -qF '{-' "$1/$name" || fault "$name has a block comment, which the gate does not read"
    done < <(tree_paths "$1" -type f -name '*.antt')
    for name in $(crate_names "$1"); do
        for claim in $(plain_records "$1/crates/$name"); do
            has_entry "$data" "$name/$claim" || [ -n "$(proofs_of "$1/crates/$name" "${claim%.*}" "${claim##*.}")" ] ||
                fault "$name claims $claim, and no definition of its proofs/ has that type"
        done
    done
    [ "$faults" -eq 0 ]
}

# A call that others can reach answers every input, and says what it answers.
open_calls_are_total() { # ROOT
    local faults=0 line call='' said=yes
    while IFS= read -r line; do
        case ${line#*: } in
        'requires '*) fault "${line%%: *} has a precondition" ;;
        'ensures '*) said=yes ;;
        *)
            [ "$said" = yes ] || fault "$call does not say what it answers"
            call=${line%%: *} said=yes
            [[ " ${line#*: }" != *' fn '* ]] || said=no
            ;;
        esac
    done < <(open_calls "$1" && echo 'the end: ')
    [ "$faults" -eq 0 ]
}

# A promise that has grown weaker breaks no proof: only the stored text shows it.
promises_are_stored() { # ROOT
    local faults=0 line
    if [ ! -s "$1/$stored_promises" ]; then
        fault "there is no $stored_promises"
        return 1
    fi
    while IFS= read -r line; do
        case $line in
        '< '*) fault "$stored_promises promises what the tree does not: ${line#< }" ;;
        '> '*) fault "$stored_promises does not have: ${line#> }" ;;
        esac
    done < <(diff <(grep -v '^passed ' "$1/$stored_promises") <(promises "$1"))
    [ "$faults" -eq 0 ]
}

# An edit elsewhere, or under another name, is never tried: it would promise what nothing shows.
edits_are_tried() { # ROOT
    local faults=0 names path
    local place='^crates/([^/]+)/(must-fail/[^/.][^/]*|controls)\.edit$'
    names=$(crate_names "$1")
    while IFS= read -r path; do
        if ! [[ $path =~ $place ]] || ! has_entry "$names" "${BASH_REMATCH[1]}"; then
            fault "$path is neither in must-fail/ nor the controls.edit of a listed crate, so it is never tried"
        fi
    done < <(tree_paths "$1" ! -type d -name '*.edit')
    while IFS= read -r path; do
        ! grep -qs '^file: proofs/' "$1/$path" || fault "$path changes a proof, so that its refusal says nothing of the program"
    done < <(tree_paths "$1" -type f -name '*.edit')
    while IFS= read -r path; do
        fault "$path is in a must-fail folder and is no .edit file"
    done < <(tree_paths "$1" -path '*/must-fail/*' ! \( -type f -name '*.edit' \))
    [ "$faults" -eq 0 ]
}

# In one file each wrong program can be seen refused by itself only if it changes functions of its own, and nothing that others use: a constant, a
# contract or a definition is changed in a file of its own.
programs_are_apart() { # ROOT
    local faults=0 edit crate file headed program function names owners
    while IFS= read -r edit; do
        crate=${edit%%/*}
        file=$1/crates/$crate/must-fail/${edit#*/}.edit
        # of each comment the program that it names, or `?`
        headed=$(awk '/^#/ { print /^# [a-z0-9_]+: ./ ? substr($2, 1, length($2) - 1) : "?" }' "$file")
        if [[ ${edit#*/} != group_* ]]; then
            ! grep -qvxF '?' <<<"${headed:-?}" || fault "must-fail $edit names wrong programs as a group does, and is no group_*.edit"
            continue
        fi
        [ "$headed" = "$(edit_changes "$1/crates/$crate" "$file" | cut -d ' ' -f 1 | uniq)" ] ||
            fault "must-fail $edit: its comments are not the names of its wrong programs, each once and before a replacement"
        owners=''
        while read -r program function; do
            [ "$program" != - ] || fault "must-fail $edit has a replacement before the name of a wrong program"
            [ "$function" != - ] || fault "must-fail $edit: $program changes a text that does not stand once, in the body of a function"
            names=$(awk -v f="$function" '$2 == f { print $1 }' <<<"$owners" | grep -vxF -e "$program")
            [ -z "$names" ] || fault "must-fail $edit: $program changes $function, and so does $names"
            owners+="$program $function"$'\n'
        done < <(edit_changes "$1/crates/$crate" "$file")
        [ -n "$owners" ] || fault "must-fail $edit has no replacement"
    done < <(edit_labels "$1")
    while IFS= read -r program; do
        fault "must-fail ${program% *} has two wrong programs named ${program#* }"
    done < <(program_names "$1" | sort | uniq -d)
    [ "$faults" -eq 0 ]
}

# A refusal shows something only if an edit of that function that keeps the meaning stays proved, so each has one, or a reason why there is none.
functions_have_controls() { # ROOT
    local faults=0 name wrong kept
    for name in $(crate_names "$1"); do
        kept=$([ ! -f "$1/crates/$name/controls.edit" ] || controlled_functions "$1/crates/$name")
        ! has_entry "$kept" - || fault "$name has a control of a text that does not stand once, in the body of a function"
        while IFS= read -r wrong; do
            has_entry "$kept" "$wrong" || fault "$name has wrong programs of $wrong and no control of it, nor a reason"
        done < <(changed_functions "$1" "$name")
    done
    [ "$faults" -eq 0 ]
}

# The contracts of C functions are assumed. rt refuses those of a crate's own; those of the kit are reached by libc, io and os, which no library names, and
# by std's input and output, which only programs use.
libraries_call_no_c() { # ROOT
    local faults=0 name deps dep place
    while read -r name deps; do
        [ -f "$1/crates/$name/src/lib.rt" ] || continue
        for dep in $deps; do
            case $dep in libc | io | os) fault "the library $name depends on $dep" ;; esac
        done
        while IFS= read -r place; do
            fault "the library $name reaches what C does, in ${place#"$1/"}"
        done < <(grep -rnE '^[^/]*\b((libc|io|os|std::(io|fs|env|net|process|thread|time))::|HostRuntime\b|use std::\{)' "$1/crates/$name/src" | cut -d : -f 1,2)
    done < <(crate_lines "$1")
    [ "$faults" -eq 0 ]
}

# With both roots rt takes main.rt and never proves what only lib.rt names.
crates_have_one_root() { # ROOT
    local faults=0 name file count
    for name in $(crate_names "$1"); do
        count=0
        for file in "$1/crates/$name/src/"{lib,main}.rt; do
            [ ! -f "$file" ] || count=$((count + 1))
        done
        [ "$count" -eq 1 ] || fault "$name has $count of src/lib.rt and src/main.rt, not one"
    done
    [ "$faults" -eq 0 ]
}

# rt compares what a program prints with its file `stdout`, and no more: a case that went wrong may have been stored.
outputs_are_right() { # ROOT
    local faults=0 name
    for name in $(crate_names "$1"); do
        [ -f "$1/crates/$name/src/main.rt" ] || continue
        if [ ! -s "$1/crates/$name/stdout" ]; then
            fault "the program $name has no stored output"
        elif grep -q WRONG "$1/crates/$name/stdout"; then
            fault "the stored output of $name says WRONG"
        fi
    done
    [ "$faults" -eq 0 ]
}

# `rt ci` passes a tree with edits that cannot be applied, compiled or read: they say nothing of a contract.
rt_ci_is_content() { # ROOT OUTPUT
    local faults=0 line well
    well=$(grep -a '^rt: ok; ' "$2")
    if [ -z "$well" ] || [[ $well == *$'\n'* ]]; then
        fault "rt ci did not say once that all is well"
    elif [[ $well =~ ,\ [0-9]+\ bad ]]; then
        fault "rt ci counts edits that are bad: $well"
    fi
    while IFS= read -r line; do
        fault "rt ci: ${line#rt: }"
    done < <(grep -aE ': (BAD EDIT|NOT TRIED|NOT REFUSED): ' "$2")
    [ "$faults" -eq 0 ]
}

# Prints what `rt ci` says of an edit.
said_of_edit() { # OUTPUT EDIT
    awk -v start="rt: must-fail $2.edit: " 'index($0, start) == 1 { print substr($0, length(start) + 1) }' "$1"
}

# rt's count of refused edits does not say which: each edit of the tree must be one of them. An edit that an earlier run of the same files tried has its
# line as the others do.
edits_were_refused() { # ROOT OUTPUT
    local faults=0 edit said
    while IFS= read -r edit; do
        said=$(said_of_edit "$2" "$edit")
        [[ $said == 'refused, as it must be'* && $said != *$'\n'* ]] || fault "must-fail $edit was not refused"
    done < <(edit_labels "$1")
    [ "$faults" -eq 0 ]
}

# Of several wrong programs in one file each must be refused for what it does itself, and nothing else be.
programs_were_refused() { # ROOT OUTPUT
    local faults=0 edit crate log program refused functions function seen
    while IFS= read -r edit; do
        grep -qs '^logic=not-proved$' "$1/target/must-fail/$edit.log" || fault "must-fail $edit has left no log in which it is refused"
    done < <(edit_labels "$1")
    while IFS= read -r edit; do
        crate=${edit%%/*} log=$1/target/must-fail/$edit.log
        grep -qs '^logic=not-proved$' "$log" || continue
        refused=$(refused_functions "$crate" "$log")
        functions=$(edit_changes "$1/crates/$crate" "$1/crates/$crate/must-fail/${edit#*/}.edit")
        while IFS= read -r program; do
            seen=no
            while IFS= read -r function; do
                ! has_entry "$refused" "$function" || seen=yes
            done < <(awk -v p="$program" '$1 == p { print $2 }' <<<"$functions")
            [ "$seen" = yes ] || fault "must-fail $edit: $program was not refused at a function that it changes"
        done < <(cut -d ' ' -f 1 <<<"$functions" | sort -u)
        while IFS= read -r function; do
            has_entry "$(cut -d ' ' -f 2 <<<"$functions")" "$function" ||
                fault "must-fail $edit: $function is refused, and no wrong program changes it"
        done < <(grep . <<<"$refused")
    done < <(edits_of_bodies "$1")
    [ "$faults" -eq 0 ]
}

# Where a proof no longer fits the text, or the prover came to a limit, rt says that it is refused as where the program is wrong; the prover's words tell of it.
edits_keep_the_form() { # ROOT OUTPUT
    local faults=0 bodies edit crate log said text phrase function shown
    bodies=$(edits_of_bodies "$1")
    while IFS= read -r edit; do
        crate=${edit%%/*} log=$1/target/must-fail/$edit.log said=$(said_of_edit "$2" "$edit")
        for phrase in 'only because a proof file names what the edit took away' 'only by a limit of the prover'; do
            [[ $said != *"($phrase"* ]] || fault "must-fail $edit was refused $phrase"
        done
        [ -f "$log" ] || continue # programs_were_refused names it
        if ! has_entry "$bodies" "$edit"; then # of a constant, a contract or a definition, on which any proof may rest
            text=$(tr -s '[:space:]' ' ' <"$log") # the prover breaks its lines anywhere
            for phrase in "${form_phrases[@]}"; do
                [[ $text != *"$phrase"* ]] || fault "must-fail $edit breaks the form of a proof: its log says '$phrase'"
            done
        else
            shown=$(refused_functions "$crate" "$log" "${form_phrases[@]}")
            while IFS= read -r function; do
                has_entry "$shown" "$function" || fault "must-fail $edit breaks the form of the proof of $function, and nothing else of it is refused"
            done < <(refused_functions "$crate" "$log")
        fi
    done < <(edit_labels "$1")
    [ "$faults" -eq 0 ]
}

# Prints what the check of a crate said in this run: the lines up to that it is proved.
said_of_crate() { # OUTPUT NAME
    awk -v name="$2" '
        /^== / { inside = $0 == "== " name }
        inside && $0 == "rt: " name " proved" { inside = 0 }
        inside { print }' "$1"
}

# Each listed crate has one verdict, in words that leave nothing open, or was proved by an earlier run of the same files over the same libraries. Of the
# `trusted` words one is for the kit's logic and the others are for the libraries, which are the kit's or were proved before; one of a check over kept
# work is not among them.
crates_are_proved() { # ROOT OUTPUT
    local faults=0 proved kept name verdict word
    proved=$(sed -n 's/^rt: \([^ ]*\) proved$/\1/p' "$2")
    kept=$(sed -n 's/^rt: \([^ ]*\) is kept: an earlier run on this machine proved the same files over the same libraries$/\1/p' "$2")
    for name in $(crate_names "$1"); do
        if has_entry "$kept" "$name"; then
            continue
        elif ! has_entry "$proved" "$name"; then
            fault "$name was not proved"
            continue
        fi
        verdict=$(said_of_crate "$2" "$name" | grep -a '^logic=\|^holes=')
        if [[ $verdict != 'logic=proved '* || $verdict == *$'\n'* ]]; then
            fault "$name has no verdict, or not a single one, that it is proved"
            continue
        fi
        for word in $verdict; do
            case $word in
            logic=proved | functions=* | sum=* | native=nat,char,string) ;;
            logic-built=trusted | libraries-built=trusted | statements=trusted) ;;
            axioms=* | target=* | cpu=*) ;; # only_libc_is_assumed reads the first, and the others are of what is compiled
            *) fault "$name has the word $word in its verdict" ;;
            esac
        done
    done
    [ "$faults" -eq 0 ]
}

# Prints what one crate assumes beyond what its kind may, by the lines `axioms CRATE: ..` and the verdict of its check, which it reads.
assumed_too_much() { # KIND
    awk -v kind="$1" '
        /^axioms / && !/: none reached of / {
            crate = $2
            sub(/:$/, "", crate)
            if (kind == "library" || crate != "libc" && crate != "os") print "assumes functions of " crate
            if (match($0, /\([0-9]+ of the /)) named += substr($0, RSTART + 1)
        }
        /^logic=/ {
            for (i = 1; i <= NF; i++) {
                if ($i ~ /^foreign=/) print "assumes C functions of its own, " $i
                if ($i ~ /^axioms=/) counted += substr($i, 8)
            }
        }
        END { if (counted + 0 != named + 0) print "assumes " counted + 0 " functions and names " named + 0 }'
}

# A program may rest on the contracts of libc and os, which the kit declares for std, and on nothing else; a library on none. Of a crate that an
# earlier run proved `rt ci` says no more, so what `rt all check` said of each is asked as well.
only_libc_is_assumed() { # ROOT OUTPUT
    local faults=0 name kind line
    for name in $(crate_names "$1"); do
        kind=library
        [ ! -f "$1/crates/$name/src/main.rt" ] || kind=program
        while IFS= read -r line; do
            fault "the $kind $name $line"
        done < <(said_of_crate "$2" "$name" | assumed_too_much "$kind")
    done
    [ "$faults" -eq 0 ]
}

# Each program was run as both compilers build it, and printed its stored output.
programs_ran() { # ROOT OUTPUT
    local faults=0 name by
    for name in $(crate_names "$1"); do
        [ -f "$1/crates/$name/src/main.rt" ] || continue
        for by in '' " (built by Rattle's own compiler)"; do
            grep -qaxF "rt: $name ran$by, and wrote what its file stdout has" "$2" || fault "the program $name$by was not seen to print its stored output"
        done
    done
    [ "$faults" -eq 0 ]
}

# The controls, tried in must-fail/ of a copy, must not be refused there.
controls_are_proved() { # ROOT OUTPUT
    local faults=0 name said
    for name in $(crate_names "$1"); do
        grep -qs '^new:' "$1/crates/$name/controls.edit" || continue # only reasons why there are none
        said=$(said_of_edit "$2" "$name/controls")
        [[ $said == 'NOT REFUSED: the crate is still proved with this edit'* ]] || fault "$name is not proved with its controls: ${said:-rt must-fail says nothing of them}"
    done
    [ "$faults" -eq 0 ]
}

# A test that is taken out, or a case of one, fails nothing by itself: as many must pass as are stored.
tests_are_as_many() { # ROOT PASSED
    local faults=0 line
    while IFS= read -r line; do
        case $line in
        '< '*) fault "$stored_promises has: ${line#< }" ;;
        '> '*) fault "in this run: ${line#> }" ;;
        esac
    done < <(diff <(grep '^passed ' "$1/$stored_promises") "$2")
    [ "$faults" -eq 0 ]
}

# shellcheck shell=bash
# Exchanges two fields of a struct, or two parameters of a call, and says what embed/figures.c makes of it. Structs and
# calls are read from embed/qh.h, so that none is left out. Before the pairs of each goes one that exchanges nothing.

exchanged=target/embed_test/exchanged

# Prints the fields of a struct, one a line.
fields_of() { # STRUCT
    sed -Ez "s/.*\{([^{}]*)\} $1;.*/\1/" embed/qh.h | sed -En 's/^ *\w+ (\w+);.*/\1/p'
}

# Prints the parameters of a call, one a line: the pointer and the length of a list are one.
parameters_of() { # CALL
    tr -s '\n ' ' ' <embed/qh.h | grep -Eo "\w+ $1\([^)]*\);" |
        sed -E 's/.*\((.*)\);/\1/; s/, (size_t \w+_len)/;\1/g; s/, /\n/g; s/;/, /g'
}

# Prints the names of parameters; an array has its length in brackets after its name.
names_of() { # PARAMETERS
    sed -E 's/[^,]*[ *](\w+)(\[\w*\])?(,|$)/\1\3/g' <<<"$1"
}

# Prints the header with two fields exchanged: with it a program meets the library as, with the true one, it would meet
# a library in which the two are exchanged.
header_with() { # STRUCT FIELD FIELD
    sed -Ez "s/(\w+ $2;)([^{}]*)(\b\w+ $3;)([^{}]*\} $1;)/\3\2\1\4/" embed/qh.h
}

# Prints a call that takes two of its parameters in each other's place and hands all on by name. The header is no help
# here: in C an argument goes by its place, and not by the name that the header has for it.
call_with() { # RESULT CALL PLACE PLACE PARAMETER..
    local IFS=, given=("${@:5}") taken=("${@:5}")
    taken[$3]=${given[$4]} taken[$4]=${given[$3]}
    printf '#include <qh.h>\nextern __typeof__(%s) __real_%s;\n%s __wrap_%s(%s);\n' "$2" "$2" "$1" "$2" "${taken[*]}"
    printf '%s __wrap_%s(%s) { return __real_%s(%s); }\n' "$1" "$2" "${taken[*]}" "$2" "$(names_of "${given[*]}")"
}

# Prints the pairs of the places below a number, after one that exchanges nothing.
pairs_below() { # NUMBER
    local i j
    echo '0 0'
    for ((i = 0; i < $1; i++)); do
        for ((j = i + 1; j < $1; j++)); do echo "$i $j"; done
    done
}

# Prints what figures.c does, compiled in this way: it passes, or it fails, by its status or by a crash.
outcome() { # OPTION OR SOURCE..
    if gcc -std=c11 -Wall -Wextra -Wpedantic -Werror -O0 "$@" -Itarget/embed/include embed/figures.c target/embed/lib/libqh.a \
        -o "$exchanged/figures"; then
        { timeout 20 "$exchanged/figures"; } >/dev/null 2>&1
        case $? in
        0) echo passes ;;
        1) echo fails ;;
        13[0-9]) echo crashes ;;
        *) echo 'does not run, or not to its end' ;;
        esac
    else
        echo 'does not compile'
    fi
}

# Prints a line for each two fields of each struct.
exchange_fields() {
    local struct i j fields
    while read -r struct; do
        mapfile -t fields < <(fields_of "$struct")
        while read -r i j; do
            header_with "$struct" "${fields[i]}" "${fields[j]}" >"$exchanged/qh.h"
            echo "$struct, ${fields[i]} and ${fields[j]}: $(outcome "-I$exchanged")"
        done < <(pairs_below "${#fields[@]}")
    done < <(sed -En 's/^\} (\w+);/\1/p' embed/qh.h)
}

# Prints a line for each two parameters of each call. The linker puts the exchanged call in the place of the library's.
exchange_parameters() {
    local result call i j parameters names
    while read -r result call; do
        mapfile -t parameters < <(parameters_of "$call")
        mapfile -t names < <(names_of "$(printf '%s\n' "${parameters[@]%%,*}")")
        while read -r i j; do
            call_with "$result" "$call" "$i" "$j" "${parameters[@]}" >"$exchanged/call.c"
            echo "$call, ${names[i]} and ${names[j]}: $(outcome "-Wl,--wrap=$call" "$exchanged/call.c")"
        done < <(pairs_below "${#parameters[@]}")
    done < <(sed -En 's/^(\w+) (qh_\w+)\(.*/\1 \2/p' embed/qh.h)
}

# Prints a line for each exchange in the header's structs and calls.
exchanges() {
    rm -rf "$exchanged" && mkdir -p "$exchanged" && exchange_fields && rm "$exchanged/qh.h" && exchange_parameters
}

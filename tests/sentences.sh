# shellcheck shell=bash
# The refusals as the header and the wrapper for Rust have them, each asked by a run of its own program. From the
# repository's root, after embed/build.
# shellcheck source=tests/cargo.sh
source tests/cargo.sh || exit 1

# Runs what stands in the body of a C program that includes the header.
run_with_header() { # BODY
    local folder=target/sentences
    mkdir -p "$folder" || return
    printf '#include <qh.h>\n#include <stdio.h>\nint main(void) {\n%s\n}\n' "$1" >"$folder/refusals.c"
    gcc -std=c11 -Wall -Wextra -Wpedantic -Werror -Itarget/embed/include "$folder/refusals.c" -o "$folder/refusals" &&
        "$folder/refusals"
}

# Prints NUMBER SENTENCE for each refusal of the header, without use of its names.
header_table() {
    run_with_header 'for (unsigned i = 0; i < 1000; i++)
        if (qh_sentence(i) != NULL)
            printf("%u %s\n", i, qh_sentence(i));'
}

# Prints NUMBER NAME for each name of a refusal in the header, without QH_REFUSED_.
header_names() {
    run_with_header "$(sed -n 's/^ *QH_REFUSED_\([A-Z_]*\) = .*/printf("%d \1\\n", QH_REFUSED_\1);/p' target/embed/include/qh.h)"
}

# Prints NUMBER NAME SENTENCE for each refusal of the wrapper.
wrapper_refusals() {
    QH_LIBRARY=$PWD/target/embed/lib/libqh.a package_cargo embed/wrapper release run --quiet --example refusals
}

# Prints NUMBER SENTENCE for each refusal of the wrapper.
wrapper_table() {
    wrapper_refusals | sed -E 's/^([0-9]+) \w+ /\1 /'
}

# Prints NUMBER NAME for each refusal of the wrapper, the name as a header writes it: WORD_COUNT for WordCount.
wrapper_names() {
    wrapper_refusals | sed -E 's/^([0-9]+ \w+) .*/\1/; s/([a-z])([A-Z])/\1_\2/g' | tr '[:lower:]' '[:upper:]'
}

# What the last green .ci/run left in out/gate. Read after tools/built.sh, by tools that hand on what it proved and built.

# The words behind this one in what it left.
gate() {
    sed -n "s/^$1 //p" "$top/out/gate"
}

# Why the program that stands here is not known to be proved and built from the sources that stand here by a green gate; nothing
# where it is.
fault_of_gate() {
    if [ ! -f "$top/out/gate" ]; then
        echo "no green gate is known here: run \`bash .ci/run\` first"
    elif ! gate gate | grep -qx '[1-9][0-9]* passed, 0 failed'; then
        echo "the gate is not green: $(gate gate)"
    elif ! gate tests | grep -qx '[1-9][0-9]* passed, 0 failed.*'; then
        echo "the tests are not green: $(gate tests)"
    elif [ "$(gate sources)" != "$(sum_of_sources)" ]; then
        echo "the sources are not those of the gate"
    elif [ ! -x "$program" ]; then
        echo "the program that the gate built is gone: run \`bash .ci/run\` again"
    elif [ "$(gate program)" != "$(sum_of_program)" ]; then
        echo "the program is not the one that the gate built of these sources"
    fi
}

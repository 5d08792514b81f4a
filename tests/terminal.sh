# Sourced by the scripts that type at a terminal, after prologue.sh: a program runs on a terminal of its own, and each line is typed once
# the program asks for it.

# await COUNT PATTERN: waits until COUNT lines of the terminal match PATTERN, for at most 20 seconds
await() {
    local try
    for ((try = 0; try < 1000 && $(grep -c "$2" "$scratch/terminal" || true) < $1; try++)); do
        sleep 0.02
    done
}

# type_keys KEYS..: types each KEYS, with the backslashes of printf, after a prompt of its own. '!COMMAND' is not typed but carried out at
# that prompt; if it fails, $scratch/failed is made.
type_keys() {
    local prompts=0 keys
    for keys in "$@"; do
        await $((prompts + 1)) '^> '
        if [[ $keys == !* ]]; then
            eval "${keys#!}" || : >"$scratch/failed"
            continue
        fi
        prompts=$((prompts + 1))
        if [[ $keys == ?*'\003' ]]; then
            # Ctrl-C may drop what is not yet shown.
            keys=${keys%'\003'}
            printf %b "$keys"
            await 1 "^> $keys\$"
            keys='\003'
        fi
        printf %b "$keys"
    done
}

# on_terminal COMMAND TYPIST..: runs COMMAND in a shell on a terminal, at which TYPIST.. types. What the terminal shows is in
# $scratch/terminal, the number of the process in $scratch/pid, and its status in $status.
on_terminal() {
    local command=$1
    shift
    : >"$scratch/terminal"
    status=0
    "$@" | SHELL=/bin/sh timeout 60 script -qec "echo \$\$ >$scratch/pid; $command" /dev/null >"$scratch/terminal" 2>&1 || status=$?
}

# shellcheck shell=bash
# Sourced by play and twin/library, once `rt` is known to be there.

# A crate and every crate of the repository that it needs, one name to a line; the kit's libraries are not
# among them.
kit_needed() { # ROOT CRATE
    CRATE=$2 awk '
        function visit(name,    others, count, i) {
            if (!(name in needs) || (name in seen)) return
            seen[name] = 1
            print name
            count = split(needs[name], others, " ")
            for (i = 1; i <= count; i++) visit(others[i])
        }
        { sub(/#.*/, ""); at = index($0, ":") }
        at { split(substr($0, 1, at - 1), head, " "); needs[head[1]] = substr($0, at + 1) }
        END { visit(ENVIRON["CRATE"]) }' "$1/crates.txt"
}

# Runs a command of rt in a crate's folder: rt proves first what has changed there and in the crates that it
# needs. Whoever waits is told how far it is: on standard error, and only if it takes more than a moment. What
# rt says is kept for a failure.
kit_rt() ( # WHO ROOT CRATE LOG WORDS
    who=$1 log=$4 waited='' begun=0
    all=$(kit_needed "$2" "$3" | wc -l)
    cd "$2/crates/$3" || exit
    shift 4
    tell() { printf '%s: %s\n' "$who" "$*" >&2; }
    set -o pipefail
    rt "$@" </dev/null 2>&1 | tee "$log" | while :; do
        status=0
        IFS= read -r -t 2 line || status=$?
        if [ "$status" -gt 128 ]; then
            [ -n "$waited" ] || tell "rt proves what has changed, of $all crates at most; from nothing it takes minutes"
            waited=1
            continue
        fi
        [ "$status" -eq 0 ] || break
        case $line in
        "rt: chose --jobs "*" for "*)
            begun=$((begun + 1))
            [ -z "$waited" ] || tell "${line##* } ($begun)"
            ;;
        "rt: "*"waiting for"*) tell "${line#rt: }" ;;
        esac
    done
)

# What rt said of a failure, without what it says of all that is well.
kit_why() { # LOG
    local said
    said=$(grep -E 'error|no proof|not proved|^note|^rt: ' "$1") || said=$(cat "$1")
    printf '%s\n' "$said" | cut -c 1-200 | sed -n '1,20p' >&2
}

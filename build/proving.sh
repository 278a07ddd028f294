# Runs rt so that a person can watch: one line on standard error for each crate as it is proved, nothing for a crate that was proved before.
# For the scripts that build something here, sourced from the top of the clone.

rt=$(command -v rt || true)
[ -n "$rt" ] || rt=${RATTLE_HOME:-/opt/rattle}/bin/rt

# The crate and all that it stands on in crates.txt, a name to a line.
crates_under() { # NAME
    awk -v name="$1" '
        function visit(n,    on, k, m) {
            if (!(n in deps) || n in seen) return
            seen[n] = 1
            m = split(deps[n], on, " ")
            for (k = 1; k <= m; k++) visit(on[k])
            print n
        }
        { sub(/#.*/, "") }
        /:/ { n = $0; sub(/([ \t]+staticlib)?[ \t]*:.*/, "", n); sub(/[^:]*:/, ""); deps[n] = $0 }
        END { visit(name) }' crates.txt
}

# Runs a command while no other command of this clone builds: two at once would mix. What is left running of a command that was killed
# keeps its place.
alone() { # COMMAND..
    mkdir -p target || return
    (
        if command -v flock >/dev/null && ! flock -n 9; then
            echo 'another command is building in this clone; waiting for it' >&2
            flock 9
        fi
        "$@"
    ) 9>target/lock
}

# Reads what rt says and tells of each crate that it proved: rt closes each with a line of the modules that it loaded, and says nothing of a crate that
# stands as it was proved before.
tell_proved() { # LEFT
    left=$1
    while IFS= read -r line; do
        case $line in 'crate '*': modules '*) ;; *) continue ;; esac
        line=${line#crate } left=$((left - 1))
        echo "proved ${line%%:*}, at most $left left" >&2
    done
}

# rt WORDS.. in a crate's folder, where LEFT crates are still to be gone over: rt works in the crate that it is started in, and on those below it. All
# that rt says is added to LOG. An interrupt does not reach the provers that rt starts, so rt has a session of its own, which a signal to this script
# ends as a whole. rt trusts nothing of a crate whose proof was broken off.
run_rt() ( # LOG LEFT CRATE WORDS..
    log=$1 left=$2 crate=$3 pipe=$PWD/target/rt.pipe
    shift 3
    rm -f "$pipe"
    mkfifo "$pipe" || exit
    (cd "crates/$crate" && exec setsid "$rt" "$@") </dev/null >"$pipe" 2>&1 &
    session=$!
    for signal in HUP INT TERM; do
        # shellcheck disable=SC2064
        trap "break_off $signal" "$signal"
    done
    tee -a "$log" <"$pipe" | tell_proved "$left"
    rm -f "$pipe"
    wait "$session"
)

# Ends rt's session, and then the shell of run_rt by the same signal, so that its callers end too.
break_off() { # SIGNAL
    kill -- "-$session" 2>/dev/null || kill "$session"
    rm -f "$pipe"
    trap - "$1"
    exec sh -c 'kill -s "$0" "$$"' "$1"
}

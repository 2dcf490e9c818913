# Completes the words of now in bash. A file that bash reads at its start sources this one.

# Writes the numbers of the trials in the current folder. Where it has no store it writes nothing, and makes none.
_now_trials()
{
    local now home lines
    [ -e .noworkflow/db.sqlite ] || return 0
    now=$(type -P -- "$1") && now=$(readlink -f -- "$now") || return 0
    # The launcher would build a program that is not there, so the built one is asked.
    home=${now%/*}
    [ ! -e "$home/tools/build_now.py" ] || now=$home/crates/now/out/now
    lines=$(timeout 2 "$now" list 2>/dev/null </dev/null) || return 0
    awk '$1 ~ /^[0-9]+$/ { print $1 }' <<<"$lines"
}

# Completes the words behind run: options, then FILE, then ARGs.
_now_run()
{
    local word=$1 at=2 given=0 options=' --bare --steps '
    while ((at < COMP_CWORD)); do
        case ${COMP_WORDS[at]} in
            --)
                options=
                ((given += COMP_CWORD - at - 1))
                break
                ;;
            --bare) options=${options/ --bare / } ;;
            --steps)
                options=${options/ --steps / }
                # Bash takes the sign of --steps=N for a word.
                ((at + 1 == COMP_CWORD)) || [ "${COMP_WORDS[at + 1]}" != = ] || ((at += 1))
                ((at += 1))
                # The word is N itself.
                ((at < COMP_CWORD)) || return 0
                ;;
            *) ((given += 1)) ;;
        esac
        ((at += 1))
    done
    compopt -o filenames 2>/dev/null
    case $word in
        -*) mapfile -t COMPREPLY < <(compgen -W "$options" -- "$word") ;;
        *)
            if ((given)); then
                mapfile -t COMPREPLY < <(compgen -f -- "$word")
            else
                mapfile -t COMPREPLY < <(
                    [ "$word" ] || compgen -W "$options"
                    compgen -f -X '!*.py' -- "$word"
                    compgen -d -X .noworkflow -- "$word"
                )
            fi
            ;;
    esac
}

_now()
{
    local word=${COMP_WORDS[COMP_CWORD]}
    COMPREPLY=()
    if ((COMP_CWORD == 1)); then
        mapfile -t COMPREPLY < <(compgen -W 'run list history show restore dataflow slice value replay sources effects' -- "$word")
        return 0
    fi
    case ${COMP_WORDS[1]} in
        run) _now_run "$word" ;;
        show | restore | dataflow | slice | value | replay | sources | effects)
            ((COMP_CWORD > 2)) || mapfile -t COMPREPLY < <(compgen -W "$(_now_trials "${COMP_WORDS[0]}")" -- "$word")
            ;;
    esac
}

complete -F _now now

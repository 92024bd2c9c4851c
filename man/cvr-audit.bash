# Made by tools/audit_manual from companion/cvr_audit/line.py. Change that.
_cvr_audit() {
    COMPREPLY=()
    if [ "$COMP_CWORD" -eq 1 ]; then
        compopt +o default
        COMPREPLY=($(compgen -W 'records compare trace without page warnings totals lines strict why writeins definition gather journal -h --help --version' -- "$2"))
        return
    fi
    case $3 in
    --columns) compopt +o default; COMPREPLY=($(compgen -W 'manifest batches cvrs ranks arlo raire' -- "$2")); return ;;
    --contest) compopt +o default; return ;;
    --unit) compopt +o default; return ;;
    --batch) compopt +o default; return ;;
    --selection) compopt +o default; return ;;
    --by) compopt +o default; COMPREPLY=($(compgen -W 'unit batch device style' -- "$2")); return ;;
    --format) compopt +o default; COMPREPLY=($(compgen -W 'text csv json' -- "$2")); return ;;
    --format) compopt +o default; COMPREPLY=($(compgen -W 'json' -- "$2")); return ;;
    --format) compopt +o default; COMPREPLY=($(compgen -W 'text json' -- "$2")); return ;;
    --as) compopt +o default; COMPREPLY=($(compgen -W 'vxsuite cdf dominion dominion-json ess hart clearballot' -- "$2")); return ;;
    --contests) compopt +o default; return ;;
    --left-out) compopt +o default; return ;;
    --means) compopt +o default; return ;;
    --device) compopt +o default; return ;;
    --votes) compopt +o default; return ;;
    --heads) compopt +o default; COMPREPLY=($(compgen -W 'choice:party party:choice choice' -- "$2")); return ;;
    esac
    case ${COMP_WORDS[1]}:$2 in
    records:-*) COMPREPLY=($(compgen -W '-o --columns --spreadsheet --files-from --null -h --help' -- "$2")) ;;
    compare:-*) COMPREPLY=($(compgen -W '--one --other --one-from --other-from --null -h --help' -- "$2")) ;;
    trace:-*) COMPREPLY=($(compgen -W '--contest --unit --batch --selection --files-from --null -h --help' -- "$2")) ;;
    without:-*) COMPREPLY=($(compgen -W '--files-from --null -h --help' -- "$2")) ;;
    page:-*) COMPREPLY=($(compgen -W '--manifest --public --second --test -o --files-from --null -h --help' -- "$2")) ;;
    warnings:-*) COMPREPLY=($(compgen -W '--manifest --all --files-from --null -h --help' -- "$2")) ;;
    totals:-*) COMPREPLY=($(compgen -W '--by --format --spreadsheet --test -o --files-from --null -h --help' -- "$2")) ;;
    lines:-*) COMPREPLY=($(compgen -W '--format -o --files-from --null -h --help' -- "$2")) ;;
    strict:-*) COMPREPLY=($(compgen -W '--test --files-from --null -h --help' -- "$2")) ;;
    why:-*) COMPREPLY=($(compgen -W '--format -o --files-from --null -h --help' -- "$2")) ;;
    writeins:-*) COMPREPLY=($(compgen -W '--files-from --null -h --help' -- "$2")) ;;
    definition:-*) COMPREPLY=($(compgen -W '--test -o --files-from --null -h --help' -- "$2")) ;;
    gather:-*) COMPREPLY=($(compgen -W '-o --as --test --incomplete --manifest --contests --left-out --means --device --votes --heads --files-from --null -h --help' -- "$2")) ;;
    journal:-*) COMPREPLY=($(compgen -W '--verify -h --help' -- "$2")) ;;
    esac
}
complete -o default -F _cvr_audit cvr-audit

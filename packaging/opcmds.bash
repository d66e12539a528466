# Completion of opcmds in bash. `tools/manual --write` makes this file from the program's own help.
_opcmds() {
    local word=$2 before=$3 options given
    COMPREPLY=()
    if ((COMP_CWORD == 1)) && [[ $word == -* ]]; then
        mapfile -t COMPREPLY < <(compgen -W '--help --version' -- "$word")
        return
    fi
    if ((COMP_CWORD == 1)) || [[ ${COMP_WORDS[1]} == help && $COMP_CWORD == 2 ]]; then
        mapfile -t COMPREPLY < <(compgen -W 'who may explain check diff sheet decide run serve account import export digest commands help' -- "$word")
        return
    fi
    if [[ $before == = ]]; then
        before=${COMP_WORDS[COMP_CWORD - 2]}
    elif [[ $word == = ]]; then
        before=${COMP_WORDS[COMP_CWORD - 1]} word=
    fi
    case ${COMP_WORDS[1]} in
        who) options='--command --as --resource --level --class --console --json --allowed --policy --db --help' ;;
        may) options='--user --console --allowed --json --policy --db --help' ;;
        explain) options='--user --command --as --resource --level --class --console --json --why --policy --db --help' ;;
        check) options='--policy --db --allow --json --help' ;;
        diff) options='--json --help' ;;
        sheet) options='--policy --db --help' ;;
        decide) options='--policy --port --socket --socket-mode --strict --count --timeout --log --base --help' ;;
        run) options='--db --policy --now --console --log --help' ;;
        serve) options='--db --port --socket --socket-mode --strict --count --timeout --log --policies --help' ;;
        account) options='--db --from --last --count --since --until --user --console --code --json --help' ;;
        import) options='--db --batch --console --dry-run --help' ;;
        export) options='--db --help' ;;
        digest) options=--help ;;
        commands) options=--help ;;
        *) return ;;
    esac
    case "${COMP_WORDS[1]} $before" in
        "who --level") mapfile -t COMPREPLY < <(compgen -W 'NONE READ UPDATE CONTROL ALTER' -- "$word"); return ;;
        "who --class") mapfile -t COMPREPLY < <(compgen -W 'OPERCMDS CONSOLE' -- "$word"); return ;;
        "who --policy" | "who --db") compopt -o filenames; mapfile -t COMPREPLY < <(compgen -f -- "$word"); return ;;
        "who --command" | "who --as" | "who --resource" | "who --console") return ;;
        "may --policy" | "may --db") compopt -o filenames; mapfile -t COMPREPLY < <(compgen -f -- "$word"); return ;;
        "may --user" | "may --console") return ;;
        "explain --level") mapfile -t COMPREPLY < <(compgen -W 'NONE READ UPDATE CONTROL ALTER' -- "$word"); return ;;
        "explain --class") mapfile -t COMPREPLY < <(compgen -W 'OPERCMDS CONSOLE' -- "$word"); return ;;
        "explain --policy" | "explain --db") compopt -o filenames; mapfile -t COMPREPLY < <(compgen -f -- "$word"); return ;;
        "explain --user" | "explain --command" | "explain --as" | "explain --resource" | "explain --console") return ;;
        "check --allow") mapfile -t COMPREPLY < <(compgen -W 'N01 N02 N03 N04 N05 N06 N08 N09 N10 N11 N12 N13 N14 N15 N16 N17 N18 N19 N20' -- "$word"); return ;;
        "check --policy" | "check --db") compopt -o filenames; mapfile -t COMPREPLY < <(compgen -f -- "$word"); return ;;
        "sheet --policy" | "sheet --db") compopt -o filenames; mapfile -t COMPREPLY < <(compgen -f -- "$word"); return ;;
        "decide --socket-mode") mapfile -t COMPREPLY < <(compgen -W '600 660 666' -- "$word"); return ;;
        "decide --policy" | "decide --socket") compopt -o filenames; mapfile -t COMPREPLY < <(compgen -f -- "$word"); return ;;
        "decide --port" | "decide --count" | "decide --timeout" | "decide --base") return ;;
        "run --db" | "run --policy" | "run --log") compopt -o filenames; mapfile -t COMPREPLY < <(compgen -f -- "$word"); return ;;
        "run --console") return ;;
        "serve --socket-mode") mapfile -t COMPREPLY < <(compgen -W '600 660 666' -- "$word"); return ;;
        "serve --db" | "serve --socket" | "serve --policies") compopt -o filenames; mapfile -t COMPREPLY < <(compgen -f -- "$word"); return ;;
        "serve --port" | "serve --count" | "serve --timeout") return ;;
        "account --code") mapfile -t COMPREPLY < <(compgen -W 'E01 E02 E03 E04 E05 E06 E10 E11 E12 E13 E14 E15 E16 E17 E20 E21 E30 E31 E32 E33 E34 E35 E36 E37 E38 E39 E40 E41 E42 E45 E50 E51 E52 E53 E55 E56 E57 E60 E90 E91 E92 WARN' -- "$word"); return ;;
        "account --db") compopt -o filenames; mapfile -t COMPREPLY < <(compgen -f -- "$word"); return ;;
        "account --from" | "account --last" | "account --count" | "account --since" | "account --until" | "account --user" | "account --console") return ;;
        "import --db") compopt -o filenames; mapfile -t COMPREPLY < <(compgen -f -- "$word"); return ;;
        "import --batch" | "import --console") return ;;
        "export --db") compopt -o filenames; mapfile -t COMPREPLY < <(compgen -f -- "$word"); return ;;
    esac
    case ${COMP_WORDS[1]} in
        who | may | explain | check | sheet | run | import) [[ $word == -* ]] || { compopt -o filenames; mapfile -t COMPREPLY < <(compgen -f -- "$word"); return; } ;;
    esac
    # an option that was given is not given again
    for given in "${COMP_WORDS[@]:2:COMP_CWORD - 2}"; do
        options=" $options " options=${options/ "$given" / }
    done
    mapfile -t COMPREPLY < <(compgen -W "$options" -- "$word")
}
complete -F _opcmds opcmds

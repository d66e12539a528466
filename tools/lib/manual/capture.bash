# What bash completes: capture.bash FILE WORD.. prints, one a line, what FILE offers for the last WORD.
source "$1"
shift
# (outside a completion there is nothing to set)
compopt() { :; }
COMP_WORDS=("$@") COMP_CWORD=$(($# - 1))
complete -p opcmds > /dev/null && _opcmds opcmds "${COMP_WORDS[COMP_CWORD]}" "${COMP_WORDS[COMP_CWORD - 1]}"
printf '%s\n' "${COMPREPLY[@]}"

# What zsh completes: capture.zsh FOLDER OUTPUT LINE types LINE and the tab key into a zsh of its own, which finds
# completions in FOLDER, and writes to OUTPUT, one a line, what is offered.
zmodload zsh/zpty
zpty shell zsh -f -i
{
    zpty -w shell "PS1= PS2= fpath=(${(q)1} \$fpath) output=${(q)2}; unsetopt beep; setopt no_list_ambiguous"
    zpty -w shell 'autoload -Uz compinit && compinit -u -D && autoload -Uz _opcmds && compdef _opcmds opcmds'
    # what is offered goes to the file
    zpty -w shell 'compadd() {
        local -a offered
        if [[ ${@[(I)-[OAD]]} == 0 ]]; then
            builtin compadd -O offered "$@"
            print -rl -- $offered >> $output
        fi
        builtin compadd "$@"
    }'
    zpty -w shell 'ended() { print -r -- END >> $output; }; zle -N ended; bindkey "^X^E" ended'
    zpty -w shell 'bindkey "^I" complete-word; : > $output; print -r -- READY >> $output'
    for ((tries = 0; tries < 600; tries++)); do
        grep -qs READY "$2" && break
        sleep 0.05
    done
    zpty -n -w shell "$3"$'\t\C-X\C-E'
    for ((tries = 0; tries < 600; tries++)); do
        grep -qs END "$2" && break
        sleep 0.05
    done
} always {
    zpty -d shell
}

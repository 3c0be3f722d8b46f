# Prints what zsh offers after a line, a word a line, sorted:
#
#     zsh -f tests/tools/zsh_offers.zsh LINE FILE
#
# FILE is a file to use. A shell on a terminal of its own loads packaging/share/zsh and gets the line and a tab.
zmodload zsh/zpty || exit 1
folder=${${(%):-%x}:A:h:h:h}/packaging/share/zsh/site-functions
: >$2
zpty shell zsh -f -i
for line in \
    "module_path=($module_path) fpath=($folder $fpath) file=${(q)2}" \
    'PS1= && stty -echo && autoload -Uz compinit && compinit -u -D' \
    'compadd() { [[ "$*" != *-[OAD]\ * ]] || { builtin compadd "$@"; return }
        local -a offered; builtin compadd -A offered "$@"; print -rl -- $offered >>$file; builtin compadd "$@" }' \
    'ended() { print ended >>$file; zle kill-buffer }' \
    'comppostfuncs=(ended)'; do
    zpty -w shell $line
done
zpty -w -n shell $1$'\t'
repeat 200; do
    sleep 0.05
    [[ $(tail -n 1 $2) != ended ]] || break
done
zpty -d shell
[[ $(tail -n 1 $2) = ended ]] || print 'nothing was completed in ten seconds'
sed '/^$/d; /^ended$/d' $2 | LC_ALL=C sort -u

# Prints what zsh completes after `tukyamid `, in a terminal of its own, up to the word at the end: complete.zsh FOLDER
zmodload zsh/zpty
zpty shell zsh -f -i
zpty -w shell "PS1= PROMPT= RPROMPT=; fpath=(${(q)1} \$fpath); autoload -Uz compinit; compinit -u -D; echo rea''dy"
while zpty -r shell line; do [[ $line == *ready* ]] && break; done
zpty -w -n shell $'tukyamid \t\t'
while zpty -r shell line; do
    print -r -- "$line"
    [[ $line == *verify* ]] && exit 0
done
exit 1

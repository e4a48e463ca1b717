# Completes the words of jcconv in bash:  . tools/completion.bash
_jcconv() {
    local word=${COMP_WORDS[COMP_CWORD]} kind="" page
    local words="convert check jvm card make verify link linkjvm compat explain pack unpack advise help --help --version --prove"
    COMPREPLY=()
    if [ "$COMP_CWORD" -eq 1 ]; then
        mapfile -t COMPREPLY < <(compgen -W "$words" -- "$word")
        return
    fi
    case ${COMP_WORDS[1]}:$COMP_CWORD in
    convert:3 | check:3 | card:3 | verify:3 | unpack:3) kind=-d ;;
    pack:2) kind=-d ;;
    make:* | help:*) ;;
    explain:2)
        page=$(command -v -- "${COMP_WORDS[0]}" || echo "${COMP_WORDS[0]}")
        page=$(dirname "$(readlink -f "$page")")/docs/RULES.md
        mapfile -t COMPREPLY < <(compgen -W "- $(sed -n 's/^### \([0-9]*\) .*/\1/p' "$page" 2>/dev/null)" -- "$word")
        return
        ;;
    *) kind=-f ;;
    esac
    if [ "${COMP_WORDS[1]}" = help ]; then
        mapfile -t COMPREPLY < <(compgen -W "${words% help*}" -- "$word")
    elif [ -n "$kind" ]; then
        mapfile -t COMPREPLY < <(compgen $kind -- "$word")
    fi
}
complete -o filenames -F _jcconv jcconv ./jcconv

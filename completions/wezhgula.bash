# bash completion for Wezhgula's programs. trials/pages compares its words with those of the manual pages.

# The options of a program, or of a command of hs_tool.
_wezhgula_options() {
    case $1 in
        hs_show) echo --committee --statement --lineage --explain --help --version ;;
        hs_signer) echo --listen --read --serve --successor --ask --sessions --furthest --host --group --while-input --verbose --renew --keep --compared --help --version ;;
        hs_watch) echo --every --reread --listen --host --name --state --keep-most --lineage --until-culprit --until-input-ends --export --help --version ;;
        hs_follow) echo --renewal --proof --light --lineage --fetch --help --version ;;
        hs_draw) echo --help --version ;;
        'hs_tool keygen') echo --key --random --stdin --behind --keys ;;
        'hs_tool replica') echo --workers --serve --requests ;;
        'hs_tool audit') echo --tries --strict --strict-all --why --keep --json --time ;;
    esac
}

# The commands of hs_tool.
_wezhgula_commands() { echo keygen committee replica audit weighted migrate export renewal; }

_wezhgula() {
    local program=${COMP_WORDS[0]##*/} word=${COMP_WORDS[COMP_CWORD]} words
    if [ "$program" = hs_tool ] && [ "$COMP_CWORD" = 1 ]; then
        words=$(_wezhgula_commands)
    elif [ "$program" = hs_tool ]; then
        words=$(_wezhgula_options "hs_tool ${COMP_WORDS[1]}")
    else
        words=$(_wezhgula_options "$program")
    fi
    # Where no word fits bash goes on with names of files.
    mapfile -t COMPREPLY < <(compgen -W "$words" -- "$word")
}
complete -o default -F _wezhgula hs_check hs_draw hs_follow hs_show hs_signer hs_tool hs_watch

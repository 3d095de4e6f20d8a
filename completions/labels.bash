# Completion of labels and its tools; completions/make.py makes it.
_labels() {
    local word=${COMP_WORDS[COMP_CWORD]} before=${COMP_WORDS[COMP_CWORD - 1]} option options values
    # bash cuts --option=value into three words
    if [ "$word" = '=' ]; then
        word=
    elif [ "$before" = '=' ]; then
        before=${COMP_WORDS[COMP_CWORD - 2]}
    fi
    # An option with its values, with = alone a text of any kind, with =FILE the name of a file.
    case ${1##*/} in
        labels) options='--format=pbm,ascii --scale=1,2,3,4,5,6,7,8 --height= --level=L,M,Q,H --min-version=1,2,3,4,5,6,7,8,9,10 --mask=0,1,2,3,4,5,6,7 --escapes --help' ;;
        label-table) options='--help --version --summary --code= --title= --text= --price= --unit-price= --old-price= --currency= --copies= --variants-of= --where= --new-since=FILE --hidden --symbology=auto,ean13,ean8,upca,code128,qr --settings= --digits=lost-zeros,no-check --allow-zeros --links --price-as= --currency-name= --decimal=comma,point --date-as= --sheet= --delimiter= --encoding= --header-row=' ;;
        label-print) options='--help --version --stock= --list-stock= --paper= --cell= --grid= --margin= --gap= --edge= --shift= --design=article,shelf,FILE --turn=yes,no --module= --note= --font= --no-raised-cents --first= --only= --only-code= --after= --escapes --to=pdf,png,pbm,zpl,escpos --dpi=203,300,600 --each=FILE --print= --paper-as-given --journal=FILE --again= --state=list,printed,missing --stream --dots= --no-cut --summary' ;;
    esac
    COMPREPLY=()
    for option in $options; do
        case $option in
            "$before=FILE") return ;;
            "$before="*)
                values=${option#*=}
                [[ $values == *,FILE ]] || compopt +o default
                values=${values%,FILE}
                mapfile -t COMPREPLY < <(compgen -W "${values//,/ }" -- "$word")
                return
                ;;
        esac
    done
    # What is no option is a file: readline completes it, whatever is in its name.
    [[ $word == -* ]] || return
    for option in $options; do
        [[ ${option%%=*} != "$word"* ]] || COMPREPLY+=("${option%%=*}")
    done
}
complete -o default -F _labels labels label-table label-print

#!/bin/sh
# Every definition, function, law, edit and stored case that the documents name is there. Names stand between backticks:
#   crate/File.name   a definition, in crates/crate/specs/File.antt      crate::function   a function of the crate
#   crate/name        a must-fail edit of the crate                      Record.field      a record of some specs/ and its field
#   cases/module: f   a function of the stored cases' module
# Names of no such form are passed over.
set -u
cd "$(dirname "$0")/.." || exit 1
documents="docs/TRACE.md docs/STATEMENTS.md docs/DECISIONS.md README.md"

# has WORD FILE..: a whole word of the language stands in one of the files
has() {
    word=$1
    shift
    grep -qsE -- "(^|[^[:alnum:]_-])$word([^[:alnum:]_-]|\$)" "$@"
}

# is_there NAME
is_there() {
    case $1 in
    cases/*)
        module=${1#cases/}
        file=second/reference/src/bin/cases/${module%%: *}.rs
        [ -f "$file" ] || return 1
        case $module in *": "*) grep -qF "fn ${module#*: }" "$file" ;; esac
        ;;
    *" "* | *crate* | make*) ;;
    *::*)
        crate=${1%%::*}
        case $crate in Geometry | DiscBit | BlockBit) crate=geometry ;; esac
        has "${1#*::}" crates/"$crate"/src/*.rt
        ;;
    */*)
        crate=${1%%/*}
        rest=${1#*/}
        grep -qE "^$crate( [^:]*)?:" crates.txt || return 0
        case $rest in
        [A-Z]*)
            file=crates/$crate/specs/${rest%%.*}.antt
            [ -f "$file" ] || return 1
            for word in $(echo "$rest" | tr . ' '); do
                [ "$word" = "${rest%%.*}" ] || has "$word" "$file" || return 1
            done
            ;;
        *) [ -f "crates/$crate/must-fail/$rest.edit" ] ;;
        esac
        ;;
    [A-Z]*.[a-z]*) has "${1%%.*}" crates/*/specs/*.antt && has "${1#*.}" crates/*/specs/*.antt ;;
    esac
}

lost=0
names=0
list=$(awk -F '`' '{ for (i = 2; i <= NF; i += 2) print FILENAME ":" FNR "\t" $i }' $documents)
tab=$(printf '\t')
while IFS=$tab read -r place name; do
    names=$((names + 1))
    is_there "$name" || {
        echo "$place: $name is not there"
        lost=$((lost + 1))
    }
done <<LIST
$list
LIST
echo "$names names in the documents, $lost lost"
[ "$lost" -eq 0 ] && [ "$names" -gt 400 ]

#!/bin/sh
# What bay --help, the manual page and docs/bay.md say of commands, options, usual values and exit statuses is the same,
# word by word, and is what the program knows. Each of the three is brought into lines of one form:
#     command|bay run IMAGE STREAM|what it does
#     option|run|--straps N|what it means|usual value
#     status|64|what it says
. "$(dirname "$0")/lib.sh"

page=$root/host/bay/bay.1
document=$root/docs/bay.md
commands="demo run trace rack serve sheet"

# The usual value stands behind the words of an option, in the help and on the page.
with_usual='
function with_usual(words,    at) {
    at = match(words, / \(usually .*\)$/)
    return at ? substr(words, 1, at - 1) "|" substr(words, at + 10, length(words) - at - 10) : words "|"
}'

# One text of the help, on the standard input: a name begins in column 2 and its words in column 32, where they go on.
from_help() { # COMMAND
    awk -v command="$1" "$with_usual"'
    function tell() {
        if (name ~ /^--/)
            print "option|" command "|" name "|" with_usual(words)
        else if (name ~ /^bay /)
            print "command|" name "|" words
        else if (name ~ /^[0-9]/)
            print "status|" name "|" words
        name = ""
    }
    /^  [^ ]/ {
        tell()
        name = substr($0, 3, 30)
        words = substr($0, 33)
        sub(/ +$/, "", name)
        next
    }
    match($0, /[^ ]/) == 33 && name != "" { words = words " " substr($0, 33); next }
    { tell() }
    END { tell() }'
}

# The page without its fonts.
plain_page() { sed -e 's/\\f[A-Z]//g' -e 's/\\-/-/g' "$page"; }

# The page: a command is a .SS with its words below, an option or a status a .TP with its name and then its words.
from_page() {
    plain_page | awk "$with_usual"'
    function tell() {
        if (part == "COMMANDS" && kind == "TP")
            print "option|" command "|" name "|" with_usual(words)
        else if (part == "COMMANDS" && kind == "SS")
            print "command|" name "|" words
        else if (part == "EXIT STATUS" && kind == "TP")
            print "status|" name "|" words
        kind = ""
    }
    /^\.\\"/ { next }
    /^\.SH / { tell(); part = substr($0, 5); next }
    /^\.SS / { tell(); kind = "SS"; name = substr($0, 5); words = ""; split(name, word, " "); command = word[2]; next }
    /^\.TP/ { tell(); kind = "TP"; name = words = ""; next }
    /^\./ { tell(); next }
    name == "" { name = $0; next }
    { words = words (words == "" ? "" : " ") $0 }
    END { tell() }'
}

# The document: tables, each under its heading.
from_document() {
    sed -e 's/`//g' -e 's/\\|/{or}/g' "$document" | awk -F ' *[|] *' '
    /^#/ { part = $0; sub(/^#+ /, "", part); rows = 0; next }
    !/^\|/ { rows = 0; next }
    ++rows <= 2 { next }
    part == "The commands" { print "command|" $2 "|" $3 }
    part ~ /^Options of bay / { split(part, word, " "); print "option|" word[4] "|" $2 "|" $3 "|" $4 }
    part == "Exit status" { print "status|" $2 "|" $3 }' | sed 's/{or}/|/g'
}

# one_form: white space as one blank, in the order of the alphabet.
one_form() { sed -e 's/[[:space:]][[:space:]]*/ /g' -e 's/ *$//' | sort; }

{
    bay --help | from_help
    for command in $commands; do
        bay "$command" --help | from_help "$command"
    done
} | one_form >help
from_page | one_form >page
from_document | one_form >document

case_ "the help has commands, options and exit statuses"
[ "$(grep -c '^command|' help)" -ge 8 ] || wrong "$(grep -c '^command|' help) commands"
[ "$(grep -c '^option|' help)" -ge 31 ] || wrong "$(grep -c '^option|' help) options"
[ "$(grep -c '^status|' help)" -ge 10 ] || wrong "$(grep -c '^status|' help) statuses"

case_ "the manual page has the same, in the same words"
diff help page >difference || wrong "$(cat difference)"

case_ "docs/bay.md has the same, in the same words"
diff help document >difference || wrong "$(cat difference)"

# What bay knows by itself, from `The program knows` to the end of the paragraph, as one line.
what_it_knows() { tr '\n' ' ' | grep -o 'The program knows .* is asked of the proved library\.'; }

case_ "page and document say alike what bay knows of the part by itself: the bus, and words"
plain_page | what_it_knows >knows
sed '/^## /q' "$document" | what_it_knows | diff knows - >difference || wrong "$(cat difference)"
for word in frames registers commands clocks; do
    says knows "$word"
done
grep -rqiE 'knows no rule|holds no rule' "$document" "$page" "$root/docs/DECISIONS.md" && wrong "it says that bay knows no rule"

case_ "how a command is called is the same in its own help and in the page's synopsis"
plain_page | sed -n '/^\.SH SYNOPSIS/,/^\.SH DESCRIPTION/ { s/ \[options\]$//; p; }' >synopsis
grep '^command|' help | cut -d '|' -f 2 >calls
while IFS= read -r call; do
    grep -qxF -- "$call" synopsis || wrong "the synopsis lacks: $call"
    command=$(echo "$call" | cut -d ' ' -f 2)
    [ "$command" = COMMAND ] && continue
    bay "$command" --help | sed -n 's/\( \[options\]\)*: .*//p' >out
    grep -qxF -- "$call" out || wrong "bay $command --help does not begin with: $call"
done <calls
grep '^bay ' synopsis | sort >called
sort calls | diff called - >difference || wrong "$(cat difference)"

# ask COMMAND OPTION: what the program says to the option by itself.
ask() {
    case $1 in
    sheet) bay sheet write "$2" 2>&1 ;;
    *) bay "$1" "$2" 2>&1 ;;
    esac
}

case_ "the program knows every option of the help, and has no other"
grep '^option|' help | cut -d '|' -f 2,3 | while IFS='|' read -r command option; do
    case $option in
    *' '*) ask "$command" "${option%% *}" | grep -q 'stands alone' || echo "$command $option" ;;
    *) ask "$command" "$option=1" | grep -q 'does not take' || echo "$command $option" ;;
    esac
done >unknown
[ -s unknown ] && wrong "the program does not know: $(cat unknown)"
for command in $commands; do
    grep -oE '\{ "--[a-z-]+"' "$root/host/bay/$command.c" | tr -d '{" ' | sort -u | while IFS= read -r option; do
        grep -qE "^option\|$command\|$option( |\|)" help || echo "$command $option"
    done
done >untold
[ -s untold ] && wrong "the help does not tell: $(cat untold)"

case_ "the usual values are those of the program"
gives 0 bay sheet write usual.sheet
gives 0 bay sheet read usual.sheet
read -r straps program slice pause <<END
$(awk '{ print $2 }' out | tr '\n' ' ')
END
for command in run trace serve sheet; do
    grep -q "^option|$command|--straps N|.*|$straps\$" help || wrong "bay $command: usually --straps $straps"
    grep -q "^option|$command|--times .*|$program,$slice,$pause\$" help ||
        wrong "bay $command: usually --times $program,$slice,$pause"
done
make_image usual.img
printf 'read FFC0000\n' | lay >fwh.stream
printf 'part lpc\nread FFFC0000\n' | lay >lpc.stream
for part in fwh lpc; do
    gives 0 bay run usual.img $part.stream --part $part --answers $part.named
    gives 0 bay run usual.img $part.stream --answers $part.unnamed
    cmp -s $part.named $part.unnamed && usual_part=$part
done
for command in run trace rack serve; do
    grep -q "^option|$command|--part fwh|lpc|.*|$usual_part\$" help || wrong "bay $command: usually --part $usual_part"
done
for usual in serve:clients serve:idle serve:seconds serve:rest rack:seconds; do
    command=${usual%:*}
    option=${usual#*:}
    constant=USUAL_$(echo "$option" | tr '[:lower:]' '[:upper:]')
    value=$(($(grep -oE "$constant = [0-9* ]+" "$root/host/bay/$command.c" | sed 's/.*= //')))
    grep -q "^option|$command|--$option .*|$value\$" help || wrong "bay $command: usually --$option $value"
done

case_ "the exit statuses from 64 on are those of the program"
sed -nE 's/^ *TROUBLE_[A-Z_]+ = ([0-9]+),? *\/\* (.*) \*\/$/status|\1|\2/p' "$root/host/bay/trouble.h" | sort >known
grep -E '^status\|[0-9][0-9]\|' help | diff known - >difference || wrong "$(cat difference)"

case_ "the page is set without a warning"
if installed bay groff; then
    groff -man -ww -z "$page" >out 2>&1
    [ -s out ] && wrong "$(cat out)"
fi

finish

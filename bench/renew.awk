# Prints a page with the text of a file between the mark of a make rule and its end mark, which has to be the next mark; fails if
# either is missing.
# awk -v rule=bench -v tables=file -f bench/renew.awk page.md
inside && $0 == "<!-- end -->" { inside = 0; renewed = 1 }
inside && /^<!-- make / { exit }
!inside { print }
$0 == "<!-- make " rule " -->" {
    inside = 1
    print ""
    while ((getline line < tables) > 0)
        print line
    print ""
}
END { exit !renewed }

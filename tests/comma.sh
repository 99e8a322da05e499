# For tests: a language whose decimal sign is a comma.

# Prints what the environment needs for one: one that is here, or one made in FOLDER. Status 1 where there is none.
comma_locale() { # FOLDER
    for each in $(locale -a 2>/dev/null | grep '^de_DE'); do
        if [ "$(LC_ALL=$each /usr/bin/printf %.1f 1)" = 1,0 ]; then echo "LC_ALL=$each"; return 0; fi
    done
    command -v localedef >/dev/null || return 1
    mkdir -p "$1/languages"
    printf '%s\n' 'comment_char %' 'escape_char /' LC_NUMERIC 'decimal_point ","' 'thousands_sep ""' 'grouping -1' 'END LC_NUMERIC' >"$1/languages/source"
    { echo '<code_set_name> PLAIN'; echo '<mb_cur_max> 1'; echo CHARMAP; awk 'BEGIN { for (i = 0; i < 128; i++) printf "<U%04X> /x%02x a\n", i, i }'; echo 'END CHARMAP'; } >"$1/languages/letters"
    localedef -c -f "$1/languages/letters" -i "$1/languages/source" "$1/languages/comma" >/dev/null 2>&1
    made="LOCPATH=$1/languages LC_ALL= LC_NUMERIC=comma"
    [ "$(env $made /usr/bin/printf %.1f 1 2>/dev/null)" = 1,0 ] && echo "$made"
}

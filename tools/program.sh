# For scripts that need a proved program. They set `top`, the folder of this checkout, and `name`, where it isn't goaccess.
name="${name:-goaccess}"
program="$top/crates/$name/out/$name"

# Whether the program is built, and neither crates.txt nor any source of a crate is newer. Folders count too: one is newer once it has
# lost a file.
is_built() {
    [ -x "$program" ] && [ -z "$(
        cd "$top" && find crates.txt crates -path 'crates/*/out' -prune -o -path 'crates/*/must-fail' -prune \
            -o -newer "$program" \( -name '*.rt' -o -name '*.antt' -o -name crates.txt -o -type d -path 'crates/*/*' \) -print -quit
    )" ]
}

# shellcheck shell=bash
# shellcheck disable=SC2016,SC2086,SC2154 # as in scripts/check, which sources this file
# Checks of the program `cargo-toml-tools` as it is built, which each gets as its argument.

# What docs/TOOLS.md says that a command prints.
shown() {
    awk -v command="    \$ $1" '
        $0 == command { on = 1; next }
        !on { next }
        /^$/ { empty = empty "\n"; next }
        !/^    / { exit }
        { printf "%s%s\n", empty, substr($0, 5); empty = "" }' "$root/docs/TOOLS.md"
}

# The second program itself: its statuses, its refusals and its words, of which the script lets
# commands alone through.
try_program_itself() {
    local words hex on_terminal='import os, pty, subprocess, sys; ours, its = pty.openpty(); '
    on_terminal+='subprocess.run(sys.argv[1:], stderr=its); os.write(1, os.read(ours, 999))'
    hex=$(printf '0123456789abcdef%.0s' 1 2 3 4)
    mkdir -p "$work/itself/odd" && cd "$work/itself" || exit
    printf '[package]\nname = "plain"\nversion = "1.0.0"\n' > plain.toml
    printf '[package]\nname = "odd"\nversion = "1.0.0"\n\n[features]\na = ["b"]\n' > odd.toml
    echo '[package' > bad.toml
    printf '[workspace]\nmembers = ["gone"]\n' > odd/Cargo.toml
    mkdir -p part/bad && printf '[package]\nname = 1\n' > part/bad/Cargo.toml
    printf '[workspace]\nmembers = ["bad"]\n' > part/Cargo.toml
    printf '[package]\nname = "é"\nversion = "1.0.0"\n' > ../name.toml
    mkdir many && printf '[workspace]\nmembers = ["m*"]\n' > many/Cargo.toml
    printf '[workspace.package]\nedition = "2021"\n' >> many/Cargo.toml
    for ((i = 0; i < 20; i++)); do
        mkdir -p many/m$i/src && touch many/m$i/src/lib.rs
        sed "s/plain/m$i/; \$aedition = \"20$((i % 2 ? 18 : 21))\"" plain.toml > many/m$i/Cargo.toml
    done
    for words in '' index lint document audit 'audit --json' 'features a' 'audit a b' 'index a -b' \
        'document --dot' 'index --checksum 00 plain.toml' "index --checksum ${hex^^} plain.toml" \
        "index --checksum $hex plain.toml plain.toml" "index --checksum ${hex//f/g} plain.toml"; do
        call "$1" $words
        gave "the second program's refusal of '$words'" 2 '' 'error: *'
    done
    for words in help --help -h 'help lint' 'lint --help' --version 'toml-tools --version'; do
        call "$1" $words
        gave "the second program's answer to '$words'" 0 '?*' ''
    done
    call "$1" check plain.toml bad.toml
    gave 'check that finds something' 3 $'bad.toml:1:9: unclosed table*\n' ''
    printf 'plain.toml\nodd.toml\n' > list
    call "$1" index --files-from list --force --with-names
    gave 'names of files, and lines with names' 0 $'plain.toml\t{*\nodd.toml\t{*\n' ''
    printf 'plain.toml\n\n\xff.toml\nodd.toml\r\n' > list
    call "$1" check --files-from list $'a|\xff' plain.toml
    words="the name isn't UTF-8"
    gave 'names that are refused alone' 1 '' \
        "error: a\\\\|\\\\xff: $words"$'\nerror: list: name 2 is empty\n'"error: \\\\xff.toml: $words"
    printf 'plain.toml\0a\nb\0\0odd.toml' > list
    call "$1" lint -0 --files-from list
    gave 'names that end by NUL' 1 $'odd.toml:6:6: *\n' \
        $'error: a\\\\u{a}b: No such file *\nerror: list: name 3 is empty'
    for words in "audit \xff" "index --layout \xff plain.toml" "check -\xff" "\xff plain.toml"; do
        call "$1" $(printf "$words")
        gave "a word that is no name of a file: $words" 2 '' 'error: a word is no text'
    done
    printf '\xff' > bytes.toml
    call "$1" check bytes.toml plain.toml
    gave 'check of bytes' 3 $'bytes.toml:1:1: utf8\n' ''
    call "$1" lint bytes.toml plain.toml
    gave 'lint of bytes' 3 $'bytes.toml:1:1: error | unreadable |  |  | utf8\n' ''
    call "$1" index bytes.toml plain.toml
    gave 'index of bytes' 1 '{*"name":"plain",*}'$'\n' 'error: bytes.toml: *valid UTF-8'
    call "$1" index --checksum "$hex" plain.toml
    gave 'a checksum' 0 "{\"cksum\":\"$hex\",*}"$'\n' ''
    call "$1" index plain.toml bad.toml odd.toml --force
    gave 'index goes on behind a refused file' 1 \
        $'{*"name":"plain",*}\n{*"name":"odd",*}\n' 'bad.toml:1:9: unclosed table*'
    call "$1" document bad.toml plain.toml
    gave 'document goes on behind a refused file' 1 $'# Features of `plain`\n*' 'bad.toml:1:9: *'
    for words in show 'show --json' 'features --json' document 'index --layout odd'; do
        call "$1" $words bad.toml
        gave "the refusal of '$words' says where" 1 '' 'bad.toml:1:9: unclosed table, expected `]`'
    done
    call sh -c '"$0" show - < bad.toml' "$1"
    gave 'a refusal of standard input' 1 '' '-:1:9: unclosed table*'
    mkdir -p inherits/m && ln -s inherits/m away
    printf '[workspace]\n[workspace.package]\nversion = "1.2.3"\n' > inherits/Cargo.toml
    printf '[package]\nname = "m"\nversion.workspace = true\n' > inherits/m/Cargo.toml
    printf '[package]\nname = "m"\nedition.workspace = true\n' > inherits/m/lacks.toml
    for words in '"$0" index - < Cargo.toml' 'echo Cargo.toml | "$0" index --files-from -' \
        '"$0" index ../m/Cargo.toml' '"$0" index ../../away/../m/Cargo.toml'; do
        call sh -c "cd inherits/m && $words" "$1"
        gave "a member by '$words'" 0 $'{*"vers":"1.2.3",*}\n' ''
    done
    call "$1" index --alone inherits/m/Cargo.toml plain.toml
    gave 'a member alone' 1 '{*"name":"plain",*}'$'\n' \
        'error: inherits/m/Cargo.toml: package.version is left to a workspace, *'
    call "$1" check --alone inherits/m/Cargo.toml
    gave 'check of a member alone' 3 'inherits/m/Cargo.toml:3:1: package.version: is left *'$'\n' ''
    call sh -c 'cd inherits/m && "$0" check lacks.toml' "$1"
    gave 'a fault of completing has the name as it is written' 3 $'lacks.toml:1:1: *\n' ''
    printf '[package]\nname = ""\nversion = "1.0.0"\n' > none.toml
    for words in ../name.toml none.toml; do
        call "$1" index --force --layout odd $words
        gave "a name that has no place in an index: $words" 1 '' "error: $words: *"
    done
    call "$1" lint plain.toml
    gave 'lint that finds nothing' 0 '' ''
    call "$1" lint odd.toml plain.toml
    gave 'lint of several files' 3 $'odd.toml:6:6: error | unknown | a | *\n' ''
    call "$1" lint bad.toml odd.toml plain.toml
    gave 'a file that does not read is a finding' 3 \
        $'bad.toml:1:9: error | unreadable | *\nodd.toml:6:6: error | *\n' ''
    call "$1" lint gone.toml odd.toml
    gave 'a refused file counts more than an odd one' 1 $'odd.toml:6:6: error | *\n' \
        'error: gone.toml: *'
    call "$1" audit odd
    gave 'an audit that finds something' 3 $'finding absent | gone | *\n' ''
    call "$1" audit part
    gave 'an audit of a member that does not read' 3 \
        $'finding incomplete | bad | part/bad/Cargo.toml:2:1: package.name: value *\n' ''
    call "$1" audit part/bad
    gave 'an audit around what does not read' 1 '' 'part/bad/Cargo.toml:2:1: package.name: *'
    call "$1" lint --workspace part
    gave 'lint --workspace' 3 $'part/bad/Cargo.toml:2:1: error | unreadable | package.name |*\n' ''
    call "$1" lint --json --workspace part/bad plain.toml
    gave 'lint around a manifest that does not read' 3 '{"code":"unreadable",*}'$'\n' ''
    mkdir -p named/{m,root} && cp part/bad/Cargo.toml named && cp bad.toml named/root/Cargo.toml
    printf '[package]\nname = "m"\nworkspace = "../root"\n' > named/m/Cargo.toml
    call "$1" audit named/m
    gave 'an audit whose root does not read' 1 '' 'named/root/Cargo.toml:1:9: *'
    mkdir -p whole/{a,b}/src && touch whole/{a,b}/src/lib.rs && cp odd.toml whole/b/Cargo.toml
    printf '[workspace]\nmembers = ["a", "b"]\n' > whole/Cargo.toml
    cp plain.toml whole/a/Cargo.toml
    call "$1" lint --workspace whole/b plain.toml
    gave 'lint of members from within' 3 $'whole/b/Cargo.toml:6:6: error | unknown | a | b |*\n' ''
    mkdir whole/$'\xff' && printf '[workspace]\nmembers = ["*"]\n' > whole/Cargo.toml
    call "$1" audit whole
    gave 'a name under a pattern that is no text' 3 $'*\nfinding unseen | . | *\n' ''
    call "$1" audit many
    gave 'an audit of many tells no file how far it is' 3 $'member *\nfinding *\n' ''
    call "$1" audit nowhere
    gave 'an audit of what is not there' 1 '' 'error: nowhere: *'
    mkfifo slow
    (sleep 1.5 && cat plain.toml > slow) &
    call python3 -c "$on_terminal" "$1" check slow plain.toml
    gave 'a terminal is told how far a run is' 0 $'\r1 of 2 files\r\e\\[K' ''
    wait $!
    call sh -c '"$0" document plain.toml > /dev/full' "$1"
    gave 'output of the second program that fails' 1 '' \
        'error: No space left on device (os error 28)'
    cd - > /dev/null || exit
}

# A crate as Cargo packs it, and what the archive unpacks to: NAME VERSION, and perhaps other ones
# that its manifest states.
pack() {
    mkdir -p "$1-$2"
    printf '[package]\nname = "%s"\nversion = "%s"\n' "${3-$1}" "${4-$2}" > "$1-$2/Cargo.toml"
    echo "$1 $2" > "crates/$1-$2.crate"
}

# The lines of an index that name the sums of archives.
try_sums() {
    local words hex line
    hex=$(printf '0123456789abcdef%.0s' 1 2 3 4)
    mkdir -p "$work/sums/crates" && cd "$work/sums" || exit
    pack plain 1.0.0
    pack evil 1.0.0 plain 1.0.0
    pack newer 1.0.0 newer 2.0.0
    line="{\"cksum\":\"$(sha256sum < crates/plain-1.0.0.crate | head -c 64)\",*"
    (cd crates && sha256sum -- *.crate) > sums
    for words in '--crates crates' '--checksums sums'; do
        call "$1" index $words plain-1.0.0/Cargo.toml
        gave "the sum of an archive, $words" 0 "$line"$'}\n' ''
        call sh -c 'cd plain-1.0.0 && "$0" index '"${words/ / ../}"' Cargo.toml' "$1"
        gave "the sum of an archive from within, $words" 0 "$line"$'}\n' ''
        for folder in evil newer; do
            call "$1" index $words $folder-1.0.0/Cargo.toml
            gave "an archive of another crate, $words" 1 '' \
                "error: $folder-1.0.0/Cargo.toml: *$folder-1.0.0*"
        done
    done
    rm crates/plain-1.0.0.crate
    call "$1" index --crates crates plain-1.0.0/Cargo.toml
    gave 'an archive that is not there' 1 '' 'error: crates/plain-1.0.0.crate: No such file *'
    call "$1" index --crates crates --force plain-1.0.0/Cargo.toml
    gave 'no archive, but forced' 0 '{"deps":*"name":"plain",*}'$'\n' ''
    printf '%s\n' "$hex  other-1.0.0.crate" "${hex//f/0} *./plain-1.0.0.crate" > sums
    call "$1" index --checksums sums plain-1.0.0/Cargo.toml
    gave 'a checksum of a file of sums' 0 "{\"cksum\":\"${hex//f/0}\",*}"$'\n' ''
    for words in abc "\\$hex" "${hex^^}" "${hex//f/g}" "${hex}0" ''; do
        echo "$words  plain-1.0.0.crate" > sums
        call "$1" index --checksums sums --layout . plain-1.0.0/Cargo.toml
        gave "a line of sums that begins with '$words'" 1 '' \
            'error: plain-1.0.0/Cargo.toml: *checksums*'
    done
    call "$1" index --checksums sums --force plain-1.0.0/Cargo.toml
    gave 'a line without a checksum that is forced' 0 '{"deps":*"name":"plain",*}'$'\n' ''
    cd - > /dev/null || exit
}

# The files of an index.
try_layout() {
    local words file=layout/pl/ai/plain
    mkdir -p "$work/layout/crates" && cd "$work/layout" || exit
    for words in 1.0.0 1.1.0 1.2.0 1.0.0+a; do pack plain "$words"; done
    call "$1" index --crates crates --layout layout plain-1.0.0/Cargo.toml
    gave 'an index that is not there' 1 '' 'error: layout: No such file *'
    mkdir layout
    call "$1" index --layout layout plain-1.0.0/Cargo.toml
    gave 'a line without a checksum' 1 '' 'error: plain-1.0.0/Cargo.toml: *checksum*'
    "$1" index --crates crates plain-1.1.0/Cargo.toml plain-1.0.0/Cargo.toml > lines
    call "$1" index --crates crates --layout layout plain-1.1.0/Cargo.toml plain-1.0.0/Cargo.toml
    gave 'lines that go to an index' 0 '' ''
    holds 'lines in their order' cmp lines $file
    printf %s "$(head -n 1 lines)" > $file
    call "$1" index --crates crates --layout layout plain-1.0.0/Cargo.toml
    holds 'a line behind one without its end' cmp lines $file
    call "$1" index --layout layout --yank plain@1.0.0 --yank plain@1.1.0 --unyank plain@1.1.0
    gave 'a version that is yanked' 0 '' ''
    sed '2s/"yanked":false/"yanked":true/' lines > yanked
    holds 'just its mark is set' cmp yanked $file
    call "$1" index --crates crates --layout layout plain-1.0.0/Cargo.toml plain-1.2.0/Cargo.toml
    gave 'a line beside one that is yanked' 0 '' ''
    holds 'it stays yanked' cmp <(cat yanked <("$1" index --crates crates plain-1.2.0/Cargo.toml)) \
        $file
    call "$1" index --layout layout --unyank plain@1.0.0
    holds 'a version that is yanked no more' cmp lines <(head -n 2 $file)
    for words in plain@3.0.0 other@1.0.0 é@1.0.0; do
        call "$1" index --layout layout --yank $words
        gave "a version that is not there: $words" 1 '' "error: $words: *"
    done
    try_second_lines "$1" $file
    try_odd_files "$1" $file
    cd - > /dev/null || exit
}

# Lines of versions that an index or a call has already.
try_second_lines() {
    local words other='the index has another line of this version'
    python3 - "$2" <<'END'
import json, sys
lines = [json.loads(line) for line in open(sys.argv[1])]
with open(sys.argv[1], "w") as file:
    for line in lines:
        print(json.dumps(dict(reversed(line.items()))), file=file)
END
    cp "$2" before
    call "$1" index --crates crates --layout layout plain-1.0.0/Cargo.toml plain-1.1.0/Cargo.toml
    gave 'lines that another tool wrote' 0 '' ''
    call "$1" index --crates crates --layout layout plain-1.0.0+a/Cargo.toml
    gave 'other build metadata' 1 '' "error: plain-1.0.0+a/Cargo.toml: $other"
    holds 'the file stays' cmp before "$2"
    echo changed > crates/plain-1.0.0.crate
    pack plain 1.3.0
    call "$1" index --crates crates --layout layout plain-1.0.0/Cargo.toml plain-1.3.0/Cargo.toml
    gave 'another line' 1 '' "error: plain-1.0.0/Cargo.toml: $other"
    holds 'the other file is done' cmp <(cat before <("$1" index plain-1.3.0/Cargo.toml \
        --crates crates)) "$2"
    mkdir -p again copy && cp plain-1.0.0/Cargo.toml again
    printf '[package]\nname = "Plain"\nversion = "2.0.0"\n' > copy/Cargo.toml
    for words in '' '--force --layout again'; do
        call "$1" index $words plain-1.0.0/Cargo.toml again/Cargo.toml copy/Cargo.toml
        gave "a version twice in a call, $words" 1 '*' \
            $'error: again/Cargo.toml: plain 1.0.0 *\nerror: copy/Cargo.toml: * plain'
    done
    holds 'one line of it' test "$(grep -c '"name":"plain"' again/pl/ai/plain)" = 1
}

# Files of an index that hold something else, and what can't be written.
try_odd_files() {
    local words
    for words in '{}' '[' '' '{"name":"plain","vers":1}' '{"name":"plain","vers":"1.0.0","n":0.5}'
    do
        printf '%s\n' "$words" > "$2" && cp "$2" before
        call "$1" index --crates crates --layout layout plain-1.3.0/Cargo.toml
        gave "a line of an index that is '$words'" 1 '' "error: $2: line 1 isn't JSON *"
        holds "a file with the line '$words' stays" cmp before "$2"
    done
    printf '{"name":"plain","vers":"0.1.0"}\n{"name":"Plain","vers":"1.0.0"}\n' > "$2"
    call "$1" index --crates crates --layout layout plain-1.3.0/Cargo.toml
    gave 'another spelling of the name' 1 '' "error: $2: line 2 has another name of the crate"
    rm "$2" && ln -s /dev/full layout/pl/ai/.plain.new
    call "$1" index --crates crates --layout layout plain-1.3.0/Cargo.toml
    gave 'an index on a full disk' 1 '' "error: $2: No space left on device (os error 28)"
    holds 'nothing is left of it' test ! -L layout/pl/ai/.plain.new
    mkdir "$2"
    call "$1" index --crates crates --layout layout plain-1.3.0/Cargo.toml
    gave 'a folder in the place of a file' 1 '' "error: $2: Is a directory (os error 21)"
    for words in A:1/a Ab:2/ab Syn:3/s/syn a_-B:a_/-b/a_-b; do
        pack "${words%:*}" 1.0.0
        call "$1" index --crates crates --layout layout "${words%:*}-1.0.0/Cargo.toml"
        holds "the place of $words in an index" grep -q "\"${words%:*}\"" "layout/${words#*:}"
    done
    for words in https://example.org/dl https://example.org/dl; do
        call "$1" index --config $words --layout layout
        gave 'config.json' 0 '' ''
    done
    holds 'what config.json says' grep -qx '{"dl":"https://example.org/dl"}' layout/config.json
    call "$1" index --config https://example.org --layout layout
    gave 'another config.json' 1 '' 'error: layout/config.json: *'
    call "$1" index --config https://example.org --layout crates/A-1.0.0.crate
    gave 'an index that is a file' 1 '' 'error: crates/A-1.0.0.crate: *'
}

#!/usr/bin/env bash
# run.sh FOLDER: makes a tree in the current directory, with odd names, links, and a directory that is shut, and prints
# what the programs of FOLDER find there, each with its status.
programs=$1
data=$(dirname "$(readlink -f "${BASH_SOURCE[0]}")")/data

say() {
    "$programs/$1" "${@:2}" 2>&1
    echo "status $?"
}

mkdir -p src/a/tests src/b docs/reference tools odd/d/x1 odd/shut/x
for file in src/{main,lib,a/x,a/tests/t,b/[y]}.rs docs/{A,b,reference/c}.md tools/{a,m,z}.py CARGO.toml src/b/run.sh; do
    echo "$file" >"$file"
done
(cd odd && touch .h '[a]' '*' '?' é xé 'x y' d/{x,.d} d/x1/xx shut/x/y && ln -s d link && ln -s nowhere lost &&
    ln -s . again && chmod 0 shut)
find . | cut -c3- | LC_ALL=C sort | cat - "$data/texts" >../texts
for rules in assets missing broken; do
    say pack . "$data/$rules.rules"
done
say report '*' '*/*' 's*/**/[!a]*' '*/.*'
say report -i -x '*.PY' -x docs/reference 'SRC/*/*' '[D]ocs/**/*' 'ODD/*' 'odd/?'
# No `.*` under the dot rule, by which releases of the original do not find the same.
say report -d -x '*x*' 'odd/*' 'odd/*/*'
say report -e 'docs/*' 'odd/**/x*' 'src/*'
say report 'src/[a'
say routes "$data/table" ../texts
chmod 700 odd/shut

#!/bin/sh
# tools/install.sh PREFIX puts the programs that are proved and built, the tools, the manual pages and the editors' files below PREFIX, as
# /usr/local or ~/.local; tools/install.sh --remove PREFIX takes them away. PREFIX/share/ftcore has the shape of this repository, by which the
# tools find the programs, and its file `installed` lists what was put below PREFIX.
set -eu
fail() { echo "install: $1" >&2; exit 2; }
[ $# = 1 ] || [ $# = 2 -a "${1-}" = --remove ] || fail 'tools/install.sh [--remove] PREFIX'
for prefix; do :; done
case $prefix in /*) ;; ?*) prefix=$PWD/$prefix ;; *) fail 'PREFIX is empty' ;; esac
share=share/ftcore
list=$prefix/$share/installed
cd "$(dirname "$0")/.."

remove() {
    sed "s|^|$prefix/|" "$list" | xargs -d '\n' rm -f
    rm -f "$list"
    find "$prefix/share" "$prefix/bin" -type d -empty -delete
}
if [ "$1" = --remove ]; then
    [ -e "$list" ] || fail "nothing is installed in $prefix: there is no $share/installed"
    remove
    exit
fi
./prove --is-built ftcore || fail "ftcore isn't proved and built, or a source of it has changed since; ./prove does that"
if [ -e "$list" ]; then remove; fi
for name in ft ftcore; do [ ! -e "$prefix/bin/$name" ] || fail "$prefix/bin/$name is there and isn't of an earlier install; nothing is copied"; done

mkdir -p "$prefix/$share" "$prefix/bin"
put() { # a file of the repository, and where it goes
    echo "$2" >>"$list"
    if [ -x "$1" ]; then install -D -m 755 "$1" "$prefix/$2"; else install -D -m 644 "$1" "$prefix/$2"; fi
}
link() { # a file below PREFIX, and the link to it
    echo "$2" >>"$list"
    mkdir -p "$(dirname "$prefix/$2")"
    ln -sr "$prefix/$1" "$prefix/$2"
}
for name in ftcore ftjudge fttell ftoutcomes; do
    if ./prove --is-built $name; then
        put crates/$name/out/$name bin/$name
        link bin/$name $share/crates/$name/out/$name
    else
        echo "left out: $name, which isn't built; ./prove $name builds it"
    fi
done
for file in $(find tools/ft tools/ftlog kernel/ftrec.c kernel/Kbuild kernel/init kernel/known.txt crates/ft_base/src/limits.rt -type f |
    grep -vE '/(checks|make|proving|tests|upkeep|__pycache__)/'); do put "$file" $share/"$file"; done
for page in docs/man/*.1; do put "$page" share/man/man1/"${page##*/}"; done
for part in syntax ftdetect; do put editors/vim/$part/ftcore.vim share/vim/vimfiles/$part/ftcore.vim; done
put editors/ftcore.tmLanguage.json $share/ftcore.tmLanguage.json
link $share/tools/ft bin/ft

#!/bin/sh
# install.sh PREFIX   installs the built program, its manual page and the editors' modes below PREFIX, say /usr/local or ~/.local.
# Where the program isn't built, or its sources are newer, it is proved and built first.
set -e
top=$(cd "$(dirname "$0")" && pwd)
if [ $# -ne 1 ]; then
    sed -n 's/^# //p' "$0" | head -n 2 >&2
    exit 2
fi

"$top/lego" </dev/null >/dev/null
mkdir -p "$1"
prefix=$(cd "$1" && pwd)

put() {
    mkdir -p "$2"
    cp "$1" "$2/"
}

mkdir -p "$prefix/bin"
# Another name first, since a program that runs can't be written over.
cp "$top/crates/lego/out/lego" "$prefix/bin/.lego.new"
chmod 755 "$prefix/bin/.lego.new"
mv "$prefix/bin/.lego.new" "$prefix/bin/lego"
put "$top/lego.1" "$prefix/share/man/man1"
for part in syntax ftdetect ftplugin; do
    put "$top/editors/vim/$part/lego.vim" "$prefix/share/vim/vimfiles/$part"
done
put "$top/editors/emacs/lego-mode.el" "$prefix/share/emacs/site-lisp"
for file in package.json language-configuration.json extension.js syntaxes/lego.tmLanguage.json README.md; do
    put "$top/editors/vscode/$file" "$prefix/share/lego/vscode/$(dirname "$file")"
done

echo "installed: $prefix/bin/lego, lego(1), and the modes of Vim and Emacs"
echo "Vim: \`set runtimepath+=$prefix/share/vim/vimfiles\` where that isn't on its path already"
echo "Emacs: (add-to-list 'load-path \"$prefix/share/emacs/site-lisp\") (require 'lego-mode)"
echo "Visual Studio Code: cp -r $prefix/share/lego/vscode ~/.vscode/extensions/lego-proof-checker"

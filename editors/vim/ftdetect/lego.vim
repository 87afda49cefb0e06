" Scripts of lego end in .l, which Vim takes for Lex elsewhere: a first command that begins with `[` or `(*` tells.
autocmd BufNewFile,BufRead *.lego setfiletype lego
autocmd BufNewFile,BufRead *.l if getline(nextnonblank(1)) =~# '^\s*\(\[\|(\*\)' | set filetype=lego | endif

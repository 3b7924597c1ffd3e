" A file *.mod is a script where a line of its first hundred begins with the word binding or areamap.
autocmd BufNewFile,BufRead *.mod if match(getline(1, 100), '^\s*\%(binding\|areamap\)\>') >= 0 | set filetype=dusterindigo | endif

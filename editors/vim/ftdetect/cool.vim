" Files that end in .cl are Cool files.
autocmd BufNewFile,BufRead *.cl set filetype=cool

" Files *.ioa are sources of I/O automata.
autocmd BufRead,BufNewFile *.ioa setfiletype ioa

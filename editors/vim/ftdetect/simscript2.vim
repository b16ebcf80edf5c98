" Vim takes *.sim for Simula: `setfiletype` would leave it so.
autocmd BufRead,BufNewFile *.sim set filetype=simscript2

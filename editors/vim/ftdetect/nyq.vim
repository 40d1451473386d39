" Pieces of nyq end in .sal.
autocmd BufRead,BufNewFile *.sal setfiletype nyq

" Code and contracts of Rattle, and its definitions and proofs.
autocmd BufNewFile,BufRead *.rt setfiletype rattle
autocmd BufNewFile,BufRead *.antt setfiletype antt

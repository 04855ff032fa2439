" Kernels and programs in C0, and users' texts as ./try names them. Any other text of a user: `:set filetype=cvmasm`.
autocmd BufNewFile,BufRead *.c0 setfiletype c0
autocmd BufNewFile,BufRead user[0-9]*.s set filetype=cvmasm

autocmd BufRead,BufNewFile *.ioa setfiletype ioa

autocmd BufRead,BufNewFile *.evats setfiletype evats

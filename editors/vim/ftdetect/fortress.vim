autocmd BufNewFile,BufRead *.fss setfiletype fortress

" Models of Jeknaule.
autocmd BufNewFile,BufRead *.model setfiletype jeknaule

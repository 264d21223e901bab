" Sources of the pipeline language.
autocmd BufRead,BufNewFile *.pipe setfiletype pipe

" Scripts of ftcore, by their ending. Vim's own choice for it is another language.
autocmd BufNewFile,BufRead *.ft set filetype=ftcore

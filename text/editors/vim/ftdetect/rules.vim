" Files in the language of rules; `rules` alone is another type of vim's own.
autocmd BufRead,BufNewFile *.rules set filetype=rulebook

autocmd BufRead,BufNewFile *.hek,*.HEK setfiletype hek

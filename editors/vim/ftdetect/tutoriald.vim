autocmd BufNewFile,BufRead *.td setlocal filetype=tutoriald

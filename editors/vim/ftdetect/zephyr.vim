autocmd BufNewFile,BufRead *.zephyr setfiletype zephyr

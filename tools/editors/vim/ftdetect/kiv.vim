au BufRead,BufNewFile *.kiv setfiletype kiv

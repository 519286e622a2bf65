" Vim knows another language whose files end so: `set` and not `setfiletype`, which would leave that one in place.
autocmd BufNewFile,BufRead *.wm set filetype=wm
